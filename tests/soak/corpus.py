"""The parts of mails: their charsets, their bytes, and the right reply to a conversion to UTF-8, by Python's codecs."""

from __future__ import annotations

import random
from typing import Dict, List, NamedTuple

from iconvd.charmaps import Charmap
from iconvd.errors import IconvdError
from iconvd.frames import Status
from iconvd.library import Library

_TEXTS = {
    "latin": "Zwölf Boxkämpfer jagen Viktor quer über den Deich, und dann noch einmal. ",
    "cyrillic": "Съешь же ещё этих мягких французских булок, да выпей чаю. ",
    "greek": "Ξεσκεπάζω την ψυχοφθόρα βδελυγμία και μετά τίποτε. ",
    "hangul": "다람쥐 헌 쳇바퀴에 타고파. 키스의 고유조건은 입술끼리 만나야 하고. ",
    "mixed": "plain ASCII, Ünï, Кир, 日本語, 😀 and so on. ",
}

#: The service's name, Python's name, and the text. The first encodings are built into the service, the others are charmaps.
_BUILTIN = [
    ("US-ASCII", "ascii", ""),
    ("ISO-8859-1", "latin-1", "latin"),
    ("UTF-8", "utf-8", "mixed"),
    ("UTF-16LE", "utf-16-le", "mixed"),
    ("UTF-16", "utf-16-be", "greek"),
    ("UTF-32BE", "utf-32-be", "mixed"),
    ("UTF-7", "utf-7", "cyrillic"),
]
_CHARMAPS = [
    ("KOI8-R", "koi8-r", "cyrillic"),
    ("CP1251", "cp1251", "cyrillic"),
    ("ISO-8859-15", "iso-8859-15", "latin"),
    ("ISO-8859-7", "iso-8859-7", "greek"),
    ("EUC-KR", "euc-kr", "hangul"),
]

#: Names that no service knows, as in hostile mails.
HOSTILE_NAMES = [b"", b"x-unknown", b"UTF-8//TRANSLIT", b"../../etc/passwd", b"<code_set_name> X", b"\0\xff" * 100, b"A" * 255]


class Part(NamedTuple):
    """A part of a mail."""

    charset: bytes
    data: bytes
    status: Status
    left: int
    output: bytes


class Corpus:
    """Makes parts, which depend on the seed alone."""

    def __init__(self, seed: int) -> None:
        self._dice = random.Random(seed)
        self.charmaps: Dict[bytes, Charmap] = {}
        self.without: List[str] = []
        self._kinds = list(_BUILTIN)
        library = Library()
        for file, codec, text in _CHARMAPS:
            try:
                charmap = library.get(file)
            except IconvdError:
                self.without.append(file)
                continue
            self.charmaps[charmap.name] = charmap
            self._kinds.append((charmap.name.decode(), codec, text))

    def part(self, size: int = 0) -> Part:
        """A part of about `size` characters, or of a usual size: most are short, few are long. One in eight is hostile."""
        dice = self._dice
        name, codec, text_name = dice.choice(self._kinds)
        text = _TEXTS.get(text_name, "The quick brown fox. ")
        size = size or min(100_000, int(dice.lognormvariate(6.5, 1.6)) + 20)
        whole = (text * (size // len(text) + 1))[:size]
        if name in ("UTF-8", "UTF-16LE") and not dice.randrange(3):
            return self._faulty(name, codec, whole)
        return Part(name.encode(), whole.encode(codec), Status.OK, 0, whole.encode())

    def _faulty(self, name: str, codec: str, whole: str) -> Part:
        """A part with ill-formed bytes, or that ends inside a character."""
        before, after = whole[: len(whole) // 2], whole[len(whole) // 2 :].encode(codec)
        if self._dice.randrange(2):
            wrong = {"UTF-8": b"\xc0\xaf", "UTF-16LE": b"\x00\xdc"}[name] + after
            return Part(name.encode(), before.encode(codec) + wrong, Status.EILSEQ, len(wrong), before.encode())
        cut = {"UTF-8": b"\xe3\x81", "UTF-16LE": b"\x3d\xd8"}[name]
        return Part(name.encode(), whole.encode(codec) + cut, Status.EINVAL, len(cut), whole.encode())

    def own_charmap(self) -> bytes:
        """The text of a charmap named OWN that no one has sent before, of 200 mappings and `?`."""
        first = 0x3400 + self._dice.randrange(0x2000)
        lines = "".join(f"<U{first + place:04X}> \\x{0x80 + place // 100:02X}\\x{0x30 + place % 100:02X}\n" for place in range(200))
        remark = f"# {self._dice.getrandbits(64)}\n"
        return f"{remark}<code_set_name> OWN\n<mb_cur_max> 2\nCHARMAP\n<U003F> \\x3F\n{lines}END CHARMAP\n".encode()

    def choice(self, count: int) -> int:
        return self._dice.randrange(count)

    def pause(self, seconds: float) -> float:
        """A random pause, usually about `seconds` long."""
        return self._dice.expovariate(1 / seconds)
