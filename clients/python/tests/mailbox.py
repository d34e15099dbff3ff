"""Generates a mailbox of many charsets, a third of its messages damaged, and reads it by a policy of Python's email package.

    ICONVD_PROGRAM=PROGRAM python3 tests/mailbox.py [MESSAGES [ROUNDS]] [-v]

prints how long the service and Python's own codecs take for 2,000 messages, and what differs. It fails if the service takes more than
three times as long, or if a difference is not documented.
"""

from __future__ import annotations

import base64
import codecs
import email
import email.policy
import quopri
import random
import re
import sys
import time
import urllib.parse
from collections import Counter
from typing import Callable, Dict, List, NamedTuple, Optional

import support  # noqa: F401

import iconvd
import iconvd.email

LATIN = "Größe café naïve señor À bientôt: 10 Ångström"
CENTRAL = "Žluťoučký kůň, zażółć gęślą jaźń, árvíztűrő"
CYRILLIC = "Привет, мир! Съешь ещё этих мягких булок"
GREEK = "Καλημέρα κόσμε, Ελληνικά"
TURKISH = "İstanbul'da yağmur, ağır güneş, şeker"
BALTIC = "Ąžuolas, šiaurė, ķirsis, õun, Ģimene"
HEBREW, ARABIC, THAI = "שלום עולם", "مرحبا بالعالم", "สวัสดีชาวโลก"
JAPANESE, KOREAN = "日本語の文章、カタカナ、漢字", "안녕하세요 한국어 문장"
SIMPLE, TRADITIONAL = "中文简体汉字世界你好", "中文繁體漢字世界你好"
#: Charsets of mail, by the text that is written in them. What one lacks is left out of its text.
CHARSETS: Dict[str, str] = {
    name: text
    for names, text in (
        ("us-ascii utf-8 utf-16 utf-16le utf-32 utf-7 utf-8-sig", f"{LATIN} {CYRILLIC} {JAPANESE}"),
        ("iso-8859-1 iso-8859-15 iso-8859-14 windows-1252 cp437 cp850 cp858 cp860 cp861 cp863 cp865 hp-roman8 macintosh", LATIN),
        ("iso-8859-2 iso-8859-16 windows-1250 cp852 maccentraleurope", CENTRAL),
        ("iso-8859-3 iso-8859-9 windows-1254 cp857", TURKISH),
        ("iso-8859-4 iso-8859-10 iso-8859-13 windows-1257 cp775", BALTIC),
        ("iso-8859-5 koi8-r koi8-u koi8-t windows-1251 cp855 cp866 cp1125 x-mac-cyrillic ptcp154 kz-1048", CYRILLIC),
        ("iso-8859-7 windows-1253 cp737 cp869", GREEK),
        ("iso-8859-8 windows-1255 cp862", HEBREW),
        ("iso-8859-6 windows-1256", ARABIC),
        ("tis-620 iso-8859-11 windows-1258", f"{THAI} {LATIN}"),
        ("shift_jis cp932 euc-jp iso-2022-jp", JAPANESE),
        ("euc-kr cp949 johab iso-2022-kr", KOREAN),
        ("gb2312 gbk gb18030 hz-gb-2312", SIMPLE),
        ("big5 big5-hkscs", TRADITIONAL),
    )
    for name in names.split()
}
#: CPython's names of those that it has under another.
PYTHON = {"maccentraleurope": "mac_latin2", "x-mac-cyrillic": "mac_cyrillic", "hz-gb-2312": "hz"}
HOSTILE = ["no-such-charset", "unicode_escape", "idna", "undefined", "utf-8//IGNORE", "../../etc/passwd", "utf-8\\", "x" * 300, "rot13", "", "'"]
WRITTEN = ["base64", "quoted-printable", "8bit"]


class Reading(NamedTuple):
    """What one field of a message is read as: the exception if it raises one."""

    place: str
    value: object
    #: Of a content: its bytes and its charset; of a header: its source.
    data: Optional[bytes] = None
    charset: str = ""
    source: str = ""


class Times(NamedTuple):
    """Seconds for a mailbox."""

    python: float
    service: float


def python_name(charset: str) -> str:
    return PYTHON.get(charset, charset)


def text_in(chance: random.Random, charset: str, words: int) -> bytes:
    """Some words in a charset."""
    known = (CHARSETS[charset] + " plain text of a letter").split()
    text = " ".join(chance.choice(known) for _ in range(words))
    return text.encode(python_name(charset), "ignore")


def header_word(chance: random.Random, charset: str) -> str:
    data = text_in(chance, charset, 2)
    if chance.random() < 0.5:
        return f"=?{charset}?B?{base64.b64encode(data).decode()}?="
    return f"=?{charset}?q?{''.join(f'={byte:02X}' if byte > 126 or byte in b'=?_ ' or byte < 33 else chr(byte) for byte in data)}?="


def parameter(chance: random.Random, charset: str) -> str:
    quoted = urllib.parse.quote(text_in(chance, charset, 2), safe="")
    if chance.random() < 0.3 and CHARSETS[charset] and not charset.startswith(("utf-16", "utf-32")):
        return f"filename*0*={charset}''{quoted}; filename*1*=%2E; filename*2=\"txt\""
    return f"filename*={charset}'en'{quoted}"


def part(chance: random.Random, charset: str) -> bytes:
    way = chance.choice(WRITTEN if not charset.startswith("utf-16") and not charset.startswith("utf-32") else WRITTEN[:1])
    data = b"\r\n".join(text_in(chance, charset, 9) for _ in range(chance.randrange(1, 12)))
    body = {"base64": base64.encodebytes, "quoted-printable": quopri.encodestring, "8bit": bytes}[way](data)
    head = f'Content-Type: text/{chance.choice(["plain", "html"])}; charset="{charset}"\r\nContent-Transfer-Encoding: {way}\r\n'
    if chance.random() < 0.4:
        head += f"Content-Disposition: attachment; {parameter(chance, charset)}\r\n"
    return head.encode() + b"\r\n" + body.replace(b"\r\n", b"\n").replace(b"\n", b"\r\n") + b"\r\n"


def message(chance: random.Random) -> bytes:
    """A message whose words and parts have up to three charsets."""
    charsets = [chance.choice(list(CHARSETS)) for _ in range(chance.choice((1, 1, 2, 3)))]
    head = f"From: {header_word(chance, charsets[0])} <sender@example.org>\r\nTo: you@example.org, Other <other@example.org>\r\n"
    head += f"Subject: {header_word(chance, charsets[-1])}\r\n {header_word(chance, charsets[-1])} plain\r\n"
    head += "Date: Sat, 28 Nov 2026 12:00:00 +0000\r\nMessage-ID: <1@example.org>\r\nMIME-Version: 1.0\r\n"
    if len(charsets) == 1:
        return head.encode() + part(chance, charsets[0])
    head += 'Content-Type: multipart/mixed; boundary="=_part"\r\n\r\n'
    parts = b"".join(b"--=_part\r\n" + part(chance, charset) for charset in charsets)
    return head.encode() + parts + b"--=_part--\r\n"


def damaged(chance: random.Random, data: bytes) -> bytes:
    """A message with another charset, without its end, or with other bytes."""
    kind = chance.randrange(5)
    if kind == 0:
        for charset in CHARSETS:
            name = chance.choice(HOSTILE).encode()
            data = data.replace(f'"{charset}"'.encode(), b'"' + name + b'"').replace(f"=?{charset}?".encode(), b"=?" + name + b"?")
        return data
    if kind == 1:
        return data[: chance.randrange(len(data))]
    changed = bytearray(data)
    for _ in range(chance.randrange(1, 20)):
        at = chance.randrange(len(changed))
        changed[at] = chance.randrange(256) if kind < 4 else chance.choice(b'"=?*;()<>:\\\'\r\n')
    return bytes(changed)


def mailbox(count: int, seed: int = 1) -> List[bytes]:
    """Messages, of which each third is damaged."""
    chance = random.Random(seed)
    return [damaged(chance, message(chance)) if number % 3 == 2 else message(chance) for number in range(count)]


def outcome(read: Callable[[], object]) -> object:
    try:
        return read()
    except Exception as error:  # Python's own policy raises several
        return error


def readings(data: bytes, policy: email.policy.EmailPolicy) -> List[Reading]:
    """What a program reads of a message: headers, filenames and contents."""
    found = email.message_from_bytes(data, policy=policy)
    sources = {name.lower(): str(value) for name, value in reversed(list(found.raw_items()))}
    fields = [Reading(name, outcome(lambda: str(found[name])), source=sources.get(name, "")) for name in ("subject", "from", "to")]
    for each in found.walk():
        disposition = dict((name.lower(), str(value)) for name, value in each.raw_items()).get("content-disposition", "")
        fields.append(Reading("filename", outcome(each.get_filename), source=disposition))
        if not each.is_multipart():
            charset = outcome(lambda: each.get_content_charset("us-ascii"))
            fields.append(Reading("content", outcome(each.get_content), each.get_payload(decode=True), str(charset)))
    return fields


def times(box: List[bytes], rounds: int) -> Times:
    """The least times of some rounds, by turns."""
    best = Times(1e9, 1e9)
    for _ in range(rounds):
        taken = []
        for policy in (email.policy.default, iconvd.email.policy):
            began = time.perf_counter()
            for data in box:
                readings(data, policy)
            taken.append(time.perf_counter() - began)
        best = Times(*map(min, best, taken))
    return best


def is_known(charset: str) -> bool:
    """Whether both Python and the service have a charset."""
    try:
        return codecs.lookup(python_name(charset))._is_text_encoding and iconvd.supports(charset)  # type: ignore[attr-defined]
    except (LookupError, ValueError):
        return False


def replaced(data: bytes, charset: str) -> str:
    """The documented replacement, by CPython's codec: US-ASCII for a charset that nobody has."""
    return data.decode(python_name(charset) if is_known(charset) else "ascii", "replace")


def header_replaced(name: str, source: str) -> str:
    """A header whose words are decoded by CPython's codecs with the documented replacement, and written in UTF-8."""

    def write(found: "re.Match[str]") -> str:
        text = found[3].encode("ascii", "surrogateescape")
        try:
            data = quopri.decodestring(text, header=True) if found[2] in "qQ" else base64.b64decode(text + b"==")
        except ValueError:
            data = text
        return f"=?utf-8?b?{base64.b64encode(replaced(data, found[1]).encode()).decode()}?="

    written = re.sub(r"=\?([^?]*)\?([qQbB])\?([^?]*)\?=", write, re.sub("[\r\n]", "", source))
    return str(outcome(lambda: str(email.policy.default.header_factory(name, written))))


def squeezed(value: object) -> str:
    """A text in which replacement characters that follow each other are one: codecs differ in how many faults they find."""
    return re.sub("\ufffd+", "\ufffd", str(value))


#: What may differ from Python's policy. A parameter that is damaged is read up to the damage, and what cannot be parsed is left out.
DOCUMENTED = (
    r"same|content, .*: (replaced|bytes of a type that Python does not read|its charmap differs)"
    r"|(subject|from|to|filename), .*: replaced|(subject|from|to|filename), damaged: (Python raises \w+|a damaged header)"
    r"|filename, .*: Python has its charset under another name"
)


def filename_of(charset: str, source: str) -> str:
    """The filename of a whole header, by CPython's codec."""
    values = re.findall(r"filename\*[0-9*]*=(?:[^';]*'[^';]*')?\"?([^;\"]*)", source)
    return urllib.parse.unquote("".join(values), encoding=python_name(charset))


def kind_of(ours: Reading, theirs: Reading, is_damaged: bool) -> str:
    """The kind of a difference: one of DOCUMENTED, or one that should not be there."""
    what = f"{ours.place}, {'damaged' if is_damaged else 'whole'}"
    if isinstance(ours.value, Exception):
        return f"{what}: raised {ours.value!r}"
    if ours.value == theirs.value:
        return "same"
    if ours.data is not None:
        if isinstance(ours.value, bytes):
            return f"{what}: bytes of a type that Python does not read"
        text = replaced(ours.data, ours.charset)
        if squeezed(ours.value) == squeezed(text):
            return f"{what}: replaced"
        is_ours = ours.value == iconvd.default().decode(ours.data, ours.charset if iconvd.supports(ours.charset) else "us-ascii", "replace")
        return f"{what}: its charmap differs" if is_ours else f"{what}: differs"
    is_filename = ours.place == "filename"
    if not is_filename and squeezed(ours.value) == squeezed(header_replaced(ours.place, ours.source)):
        return f"{what}: replaced"
    charset = re.search(r"=([^\s;']*)'", ours.source)
    if is_filename and charset and charset[1] in PYTHON and ours.value == filename_of(charset[1], ours.source):
        return f"{what}: Python has its charset under another name"
    if is_filename and ("\ufffd" in str(ours.value) or (charset and not is_known(charset[1]))):
        return f"{what}: replaced"
    if isinstance(theirs.value, Exception):
        return f"{what}: Python raises {type(theirs.value).__name__}"
    return f"{what}: a damaged header"


def compare(box: List[bytes]) -> "Counter[str]":
    """How many fields are read as by Python's own policy, and how many otherwise, by the kind of difference."""
    kinds: Counter[str] = Counter()
    for number, data in enumerate(box):
        theirs, ours = (readings(data, policy) for policy in (email.policy.default, iconvd.email.policy))
        for one, other in zip(ours, theirs):
            kind = kind_of(one, other, number % 3 == 2)
            kinds[kind] += 1
            if "-v" in sys.argv and kind != "same":
                print(kind, ascii(one)[:300], ascii(other.value)[:150])
        if [each.place for each in ours] != [each.place for each in theirs]:
            kinds["other parts"] += 1
    return kinds


def main() -> int:
    words = [word for word in sys.argv[1:] if word.isdigit()]
    count, rounds = (int(word) for word in [*words, "2000", "3"][:1] + [*words[1:], "3"][:1])
    box = mailbox(count)
    print(f"{count} messages, {sum(map(len, box))} bytes, {len(CHARSETS)} charsets", flush=True)
    best = times(box, rounds)
    print(f"Python's codecs {best.python:.2f} s, the service {best.service:.2f} s: {best.service / best.python:.2f} times as long")
    kinds = compare(box)
    for kind, number in sorted(kinds.items()):
        print(f"{number:7} {kind}" + ("" if re.fullmatch(DOCUMENTED, kind) else "   <- not documented"))
    return int(best.service > 3 * best.python or not all(re.fullmatch(DOCUMENTED, kind) for kind in kinds))


if __name__ == "__main__":
    sys.exit(main())
