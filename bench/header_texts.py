"""Mail headers in twenty languages, by the charsets in which mailers send them. Rows of `bench/headers`."""

from __future__ import annotations

import random
from typing import Dict, Iterator, List, NamedTuple

#: A sentence or two of each language, as subjects have them.
SENTENCES: Dict[str, str] = {
    "English": "Re: Your order of last week has been shipped, and the invoice for October is attached",
    "German": "Rückfrage zur Übergabe am Dienstag: können wir die Prüfung der Entwürfe auf März verschieben?",
    "French": "Réunion reportée : le café reste fermé jusqu’à Noël, merci de prévenir les élèves déjà inscrits",
    "Spanish": "Invitación: la reunión del próximo año será en Málaga, ¿quién puede llevar más sillas mañana?",
    "Portuguese": "Confirmação da inscrição: a próxima sessão de avaliação começará às nove na nossa sede em São João",
    "Swedish": "Påminnelse: årsmötet är på lördag, och alla som är födda före nittiofyra får gå in först i kön",
    "Polish": "Przypomnienie: proszę przesłać wszystkie załączniki do środy, żebyśmy zdążyli je sprawdzić w piątek",
    "Czech": "Pozvánka na oslavu: příští čtvrtek se sejdeme u řeky, přineste si prosím něco dobrého k večeři",
    "Hungarian": "Értesítés: a következő ülés időpontja megváltozott, kérjük küldjék el a kérdőíveket szerdáig",
    "Turkish": "Hatırlatma: görüşme için gerekli belgeleri lütfen çarşamba gününe kadar şubemize iletiniz",
    "Greek": "Υπενθύμιση: η συνάντηση της Τρίτης μεταφέρεται στις δέκα, παρακαλώ ενημερώστε τους συναδέλφους",
    "Russian": "Напоминание: завтрашняя встреча переносится на четверг, пришлите, пожалуйста, исправленный договор",
    "Ukrainian": "Нагадування: зустріч із замовниками відбудеться у п’ятницю, надішліть їм оновлений кошторис",
    "Bulgarian": "Покана за събрание: моля, изпратете отчетите си до сряда, за да ги прегледаме навреме",
    "Hebrew": "תזכורת: הפגישה של יום שלישי נדחתה לשבוע הבא, נא לשלוח את המסמכים המעודכנים עד מחר בבוקר",
    "Arabic": "تذكير: تم تأجيل اجتماع يوم الثلاثاء إلى الأسبوع القادم، يرجى إرسال المستندات قبل الغد",
    "Hindi": "अनुस्मारक: मंगलवार की बैठक अगले सप्ताह होगी, कृपया संशोधित दस्तावेज़ कल सुबह तक भेज दें",
    "Chinese": "提醒：星期二的会议改到下周举行，请大家在明天上午之前把修改后的合同发给我们，谢谢",
    "Japanese": "お知らせ：火曜日の会議は来週に延期されました。修正した契約書を明日の朝までに送ってください",
    "Korean": "알림: 화요일 회의가 다음 주로 연기되었습니다. 수정한 계약서를 내일 아침까지 보내 주시기 바랍니다",
}

#: The charsets in which a language comes, by their names in Python.
CHARSETS: Dict[str, List[str]] = {
    **{name: ["iso8859-1"] for name in ("German", "French", "Spanish", "Portuguese", "Swedish")},
    **{name: ["iso8859-2"] for name in ("Polish", "Czech", "Hungarian")},
    **{name: ["koi8-r", "windows-1251"] for name in ("Russian", "Bulgarian")},
    "English": ["us-ascii", "iso8859-1"],
    "Ukrainian": ["windows-1251"],
    "Japanese": ["euc-jp"],
    "Korean": ["euc-kr"],
}
#: These can have every language.
UNICODE = ["utf-8", "utf-16-le", "utf-7"]
SHORTEST, LONGEST = 20, 200
#: Of so many headers one is damaged: a byte is lost, another one came, or the end is cut off.
DAMAGED = 10


class Header(NamedTuple):
    """A header's text as it came, and its charset."""

    language: str
    charset: str
    text: bytes


def folded(text: str) -> str:
    """The text in lines of at most 76 characters, each after the first begins with a space."""
    return "\r\n ".join(text[at : at + 75] for at in range(0, len(text), 75))


def damaged(dice: random.Random, text: bytes) -> bytes:
    at = dice.randrange(len(text))
    return dice.choice([text[:at] + text[at + 1 :], text[:at] + bytes([dice.randrange(256)]) + text[at + 1 :], text[: at + 1]])


def cut_to(text: str, charset: str, most: int) -> bytes:
    """The beginning of a text, whole characters of at most `most` bytes."""
    while len(spelled := text.encode(charset, "ignore")) > most:
        text = text[: len(text) - max(1, (len(spelled) - most) // 8)]
    return spelled


def headers(count: int, seed: int = 1) -> Iterator[Header]:
    """As many headers of each language in each of its charsets."""
    dice = random.Random(seed)
    for language, sentence in SENTENCES.items():
        for charset in CHARSETS.get(language, []) + UNICODE:
            for _number in range(count):
                at = dice.randrange(len(sentence))
                text = folded((sentence[at:] + ", " + sentence) * 3)
                spelled = cut_to(text, charset, dice.randint(SHORTEST, LONGEST))
                yield Header(language, charset, damaged(dice, spelled) if dice.randrange(DAMAGED) == 0 else spelled)
