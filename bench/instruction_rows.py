"""The rows of `bench/instructions`: the lines of workloads.txt at a small count, and streams of frames for `iconvd pipe`.

Texts are written as patterns: `c2d1` is two Chinese characters and one from U+10000 on, again and again; `a` is ASCII, `b` Cyrillic.
"""

from __future__ import annotations

import random
import re
import struct
from pathlib import Path
from typing import Callable, Iterator, List, NamedTuple, Tuple

PUT, OPEN, CONV, CLOSE, BYE = 1, 3, 4, 6, 7
STRICT = b"\x01"
ALPHABETS = {
    "a": "the quick brown fox jumps over a lazy dog ",
    "b": "абвгдежзийклмнопрстуфхцчшщъыьэюя",
    "c": "".join(map(chr, range(0x4E00, 0x4E40))),
    "d": "".join(map(chr, range(0x1F600, 0x1F640))),
}
CHARACTERS = 30_000
MOST_INPUT = 64_000


class Job(NamedTuple):
    """A line of workloads.txt at a small count: the words after the program's name."""

    name: str
    words: List[str]


class Stream(NamedTuple):
    """Frames for `iconvd pipe`: the first ones, and those of one turn, which may be repeated. The cost of a turn is counted."""

    name: str
    front: bytes
    turn: Callable[[int], bytes]
    turns: int


def jobs(listed: Path) -> Iterator[Job]:
    """A thirtieth of each job, on the input of seed 1."""
    for line in listed.read_text(encoding="utf-8").splitlines():
        name, _crate, *words = line.split()
        small = [str(max(1, int(word) // 30)) if word.isdigit() else word.replace("SEED", "1") for word in words]
        yield Job(f"workload {name}", small)


def frame(caller: int, op: int, body: bytes = b"") -> bytes:
    return struct.pack(">IIIB", 9 + len(body), caller, 0, op) + body


def named(name: str) -> bytes:
    return bytes([len(name)]) + name.encode()


def opening(target: str, source: str, caller: int = 1, policy: bytes = b"") -> bytes:
    return frame(caller, OPEN, named(target) + named(source) + policy)


def conv(text: bytes, room: int) -> bytes:
    return frame(1, CONV, struct.pack(">II", 0, room) + text)


def pattern(words: str) -> str:
    """The text of a pattern, tens of thousands of characters."""
    parts = [(ALPHABETS[letter], int(count)) for letter, count in re.findall(r"([abcd])(\d+)", words)]
    text: List[str] = []
    at = 0
    while len(text) < CHARACTERS:
        for alphabet, count in parts:
            text.extend(alphabet[(at + k) % len(alphabet)] for k in range(count))
            at += count
    return "".join(text)


def by_chance(share: float) -> str:
    """Chinese, with this share of its characters from U+10000 on."""
    chance = random.Random(1)
    return "".join(ALPHABETS["d" if chance.random() < share else "c"][k % 64] for k in range(CHARACTERS))


def same(frames: bytes) -> Callable[[int], bytes]:
    """The same frames in each turn."""
    return lambda _turn: frames


def anew(text: bytes) -> Callable[[int], bytes]:
    """In each turn another caller uploads a charmap and frees it. A comment makes each text different."""
    return lambda turn: frame(turn, PUT, b"# %d\n" % turn + text) + frame(turn, BYE)


def front_of(text: str, source: str, most: int) -> bytes:
    """The longest prefix of whole characters of a text that has at most `most` bytes."""
    return text.encode(source)[:most].decode(source, "ignore").encode(source)


def in_one_call(name: str, target: str, source: str, text: bytes) -> Stream:
    """A text as one CONV with enough room."""
    return Stream(name, opening(target, source), same(conv(text, 4 * MOST_INPUT)), 4)


def converted(source: str, target: str, text: str, what: str) -> Stream:
    """The beginning of a text, from one encoding to another."""
    return in_one_call(f"{source} to {target} {what}", target, source, front_of(text, source, MOST_INPUT))


def repeated(source: str, target: str, words: str) -> Stream:
    """A text of a pattern, from one encoding to another."""
    return converted(source, target, pattern(words), f"({words})*")


def dear_texts() -> Iterator[Stream]:
    """Texts that were slow by windows of sixteen characters, or could be."""
    for words in ["a1", "b1", "c1", "c2d1", "c1d2", "c3d1", "b1d2", "a41d1"]:
        yield repeated("UTF-16LE", "UTF-8", words)
    for share in [0.25, 0.33, 0.5]:
        yield converted("UTF-16LE", "UTF-8", by_chance(share), f"(c, {share:.2f} of it d)")
    for words in ["a1", "c1", "c5d1", "c6d1", "b5d1", "a500d1", "a1000d1", "a240b1", "a400b1"]:
        yield repeated("UTF-32LE", "UTF-8", words)
    for words in ["c1", "c5d1", "b1a4000"]:
        yield repeated("UTF-32LE", "UTF-16LE", words)
    for words in ["c1", "b1a4000"]:
        yield repeated("UTF-16LE", "UTF-16BE", words)
    for words in ["a1", "b1", "c1", "d10a64c6", "b40a120c4d5", "a1d4", "c42d1"]:
        yield repeated("UTF-8", "UTF-16LE", words)
    yield converted("ISO-8859-1", "UTF-8", "grün und weiß, " * 5_000, "(German)")


def small_rooms() -> Iterator[Stream]:
    """Calls that use up their room, one whose text is soon ill-formed, and a strict one that stops at a character that the target lacks."""
    latin = bytes(range(0xC0, 0x100)) * 8
    cyrillic = pattern("b1")
    calls: List[Tuple[str, str, str, bytes, int]] = [
        ("room 130", "UTF-8", "ISO-8859-1", latin, 130),
        ("room 500", "UTF-16BE", "UTF-16LE", cyrillic[:512].encode("UTF-16LE"), 500),
        ("room 192", "UTF-16LE", "UTF-8", cyrillic[:256].encode(), 192),
        ("a fault behind 20 characters", "UTF-16LE", "UTF-8", b"twenty characters of\xff" + b"and more " * 40, 4_000),
    ]
    for what, target, source, text, room in calls:
        yield Stream(f"{source} to {target}, {what}", opening(target, source), same(conv(text, room)), 200)
    lacking = ("ßüöäé" * 5 + "中").encode()
    front = opening("ISO-8859-1", "UTF-8", policy=STRICT)
    yield Stream("UTF-8 to ISO-8859-1, strict, 25 letters before one that it lacks", front, same(conv(lacking, 100)), 200)


def charmap(name: str, longest: int, mappings: List[Tuple[str, bytes]]) -> bytes:
    """A charmap text."""
    lines = ["<U%04X> %s\n" % (ord(character), "".join(f"\\x{byte:02x}" for byte in code)) for character, code in mappings]
    head = f"<code_set_name> {name}\n<mb_cur_max> {longest}\nCHARMAP\n"
    return (head + "".join(lines) + "END CHARMAP\n").encode()


def mappings_of(codec: str, codes: List[bytes]) -> List[Tuple[str, bytes]]:
    """The mappings of codes, each for one character, by a codec of Python."""
    found = []
    for code in codes:
        text = code.decode(codec, "ignore")
        if len(text) == 1:
            found.append((text, code))
    return found


def koi8() -> bytes:
    return charmap("KOI8-R", 1, mappings_of("koi8_r", [bytes([byte]) for byte in range(256)]))


def euc_kr() -> bytes:
    pairs = [bytes([first, second]) for first in range(0xA1, 0xFE) for second in range(0xA1, 0xFF)]
    return charmap("EUC-KR", 2, mappings_of("euc_kr", [bytes([byte]) for byte in range(128)] + pairs))


def one_front() -> bytes:
    """Letters of one byte, and 32 strings of three bytes with the same first byte."""
    letters = [(chr(0x61 + k), bytes([0x40 + k])) for k in range(26)]
    threes = [(chr(0x1000 + k), bytes([0xE0, 0x20 + k, 7])) for k in range(32)]
    return charmap("FRONT", 3, [("?", b"?"), *letters, *threes])


def scattered() -> bytes:
    """ASCII, and strings of three bytes with different first bytes, so that no table has them."""
    threes = [(chr(0x4E00 + k), bytes([0x80 + k % 100, 0x20 + k // 100, 0x30 + k % 64])) for k in range(2_000)]
    return charmap("FAR", 3, [(chr(k), bytes([k])) for k in range(128)] + threes)


def charmap_texts() -> Iterator[Stream]:
    """Texts by charmaps."""
    letters = bytes(0x40 + k % 26 for k in range(30_000))
    turns = b"".join(bytes([0x80 + k % 100, 0x20 + k // 100 % 20, 0x30 + (k % 2_000) % 64]) + b"and so on" for k in range(5_000))
    korean = "가나다라마바사아자차카타파하 " * 2_000
    put_koi8, put_euc_kr = frame(1, PUT, koi8()), frame(1, PUT, euc_kr())
    for target in ["US-ASCII", "UTF-8"]:
        stream = in_one_call(f"one front of three bytes to {target}", target, "FRONT", letters)
        yield stream._replace(front=frame(1, PUT, one_front()) + stream.front)
    stream = in_one_call("strings in no table and ASCII to UTF-8", "UTF-8", "FAR", turns)
    yield stream._replace(front=frame(1, PUT, scattered()) + stream.front)
    for name, put, text in [("KOI8-R", put_koi8, pattern("b6a1")), ("EUC-KR", put_euc_kr, korean)]:
        for source, target in [(name, "UTF-8"), ("UTF-8", name)]:
            stream = converted(source, target, text, "(text)")
            yield stream._replace(front=put + stream.front)


def headers() -> Iterator[Stream]:
    """A word of a mail header, for ten pairs of encodings and in three sizes."""
    latin, cyrillic = "Grüße aus Köln an alle, " * 20, "Привет из Москвы, " * 30
    korean = "안녕하세요 여러분 " * 40
    put_koi8, put_euc_kr = frame(1, PUT, koi8()), frame(1, PUT, euc_kr())
    pairs = [
        ("US-ASCII", "UTF-8", b"", "Re: your order of last week, " * 20),
        ("ISO-8859-1", "UTF-8", b"", latin),
        ("UTF-8", "ISO-8859-1", b"", latin),
        ("UTF-8", "UTF-8", b"", cyrillic),
        ("UTF-8", "UTF-16LE", b"", cyrillic),
        ("UTF-16LE", "UTF-8", b"", latin),
        ("UTF-7", "UTF-8", b"", latin),
        ("KOI8-R", "UTF-8", put_koi8, cyrillic),
        ("UTF-8", "KOI8-R", put_koi8, cyrillic),
        ("EUC-KR", "UTF-8", put_euc_kr, korean),
    ]
    for source, target, put, text in pairs:
        for size in [20, 60, 200]:
            one = conv(front_of(text, source, size), 4 * size)
            yield Stream(f"{size} bytes {source} to {target}", put + opening(target, source), same(one), 400)


def plain_calls() -> Iterator[Stream]:
    """Calls that convert nothing."""
    yield Stream("OPEN and CLOSE", b"", same(opening("UTF-8", "UTF-16") + frame(1, CLOSE, struct.pack(">I", 0))), 400)
    yield Stream("BYE of no caller", b"", lambda turn: frame(turn, BYE), 400)
    yield Stream("OPEN and BYE", b"", lambda turn: opening("UTF-8", "UTF-16", turn) + frame(turn, BYE), 400)


def uploads() -> Iterator[Stream]:
    """A charmap that is sent for the first time and then freed, and one that was sent before."""
    blank = b"<code_set_name> MAP\n" + b"#\n" * 20_000 + b" \n" * 20_000 + b"CHARMAP\n<question-mark> \\x3f\nEND CHARMAP\n"
    far = "".join(map(chr, range(0x4E00, 0x4E00 + 8_000)))
    threes = charmap("MAP", 3, [("?", b"?")] + [(character, bytes([0xE0, 0x20 + k // 200, 0x20 + k % 200])) for k, character in enumerate(far)])
    for name, text in [("KOI8-R", koi8()), ("EUC-KR", euc_kr()), ("three bytes", threes), ("empty lines", blank)]:
        yield Stream(f"upload {name}", b"", anew(text), 4)
    again = euc_kr()
    yield Stream("upload EUC-KR again", frame(0, PUT, again), lambda turn: frame(turn + 1, PUT, again) + frame(turn + 1, BYE), 4)


def streams() -> Iterator[Stream]:
    """All streams."""
    for rows in (headers, plain_calls, uploads, dear_texts, small_rooms, charmap_texts):
        yield from rows()
