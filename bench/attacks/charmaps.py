"""Charmaps that cost much for their size."""
from __future__ import annotations

import random
from typing import Iterator, NamedTuple

MOST_MAPPINGS = 262_144
HEADER = "<code_set_name> HOSTILE\n<mb_cur_max> 8\nCHARMAP\n"
FOOTER = "END CHARMAP\n"
# Planes after the first, which has surrogates.
FIRST = 0x10000
# Bytes with few different last bits, so that most edges of a block are not at the place that their bits give.
COLLIDING = [32 * high + low for low in range(4) for high in range(8)]


def code(number: int, size: int) -> str:
    return "".join(f"\\x{byte:02x}" for byte in number.to_bytes(size, "big"))


def single(scalar: int, spelled: str) -> str:
    return f"<U{scalar:05X}> {spelled}\n"


def ranged(scalar: int, count: int, spelled: str) -> str:
    return f"<U{scalar:05X}>..<U{scalar + count - 1:05X}> {spelled}\n"


def substitute(size: int = 8) -> str:
    """The mapping that every charmap must have, with bytes that no other one here begins with."""
    return "<question-mark> " + code(256 ** size - 1, size) + "\n"


def whole(lines: Iterator[str] | list[str], size: int = 8) -> bytes:
    return (HEADER + substitute(size) + "".join(lines) + FOOTER).encode()


def one_range(count: int = MOST_MAPPINGS - 1) -> bytes:
    return whole([ranged(FIRST, count, code(0, 8))])


def ranges_behind_prefixes(each: int, count: int = MOST_MAPPINGS - 1, seed: int = 1, stride: int | None = None) -> bytes:
    """Ranges of `each` mappings, each after seven random bytes of its own. The first characters of the ranges are `stride` apart."""
    chance = random.Random(seed)
    lines = []
    for at in range(count // each):
        prefix = chance.randrange(255 * 256 ** 6)
        lines.append(ranged(FIRST + at * (stride or each), each, code(prefix << 8, 8)))
    return whole(lines)


def colliding_blocks(count: int = MOST_MAPPINGS - 1) -> bytes:
    def spelled(at: int) -> str:
        return "".join(f"\\x{COLLIDING[at // 32 ** power % 32]:02x}" for power in (3, 2, 1, 0))

    return whole((single(FIRST + at, spelled(at)) for at in range(count)), 4)


def overlapping(lines: int = 64, each: int = 65_536, shift: int = 1) -> bytes:
    """Ranges that each repeat most of the one before."""
    return whole(ranged(FIRST + shift * at, each, code(shift * at, 8)) for at in range(lines))


def clash(count: int = MOST_MAPPINGS - 2) -> bytes:
    """A range whose last bytes already belong to another character."""
    return whole([single(0x41, code(count - 1, 8)), ranged(FIRST, count, code(0, 8))])


def too_many() -> bytes:
    return whole([ranged(FIRST, MOST_MAPPINGS + 1, code(0, 8))])


class Kind(NamedTuple):
    """A charmap, and the number of mappings that are tried before the answer."""
    name: str
    text: bytes
    mappings: int


def kinds() -> Iterator[Kind]:
    full = MOST_MAPPINGS
    yield Kind("one range", one_range(), full)
    yield Kind("forks of 2 behind 7 bytes", ranges_behind_prefixes(2), full)
    yield Kind("nodes of 33 edges", ranges_behind_prefixes(33), full // 33 * 33)
    yield Kind("colliding blocks", colliding_blocks(), full)
    yield Kind("overlapping ranges", overlapping(), 64 * 65_536)
    yield Kind("counted to Clash", clash(), full)
    yield Kind("counted to TooMany", too_many(), full)


def dearest(seed: int, count: int = MOST_MAPPINGS - 1) -> bytes:
    """A charmap that fits a frame and takes much memory: nodes of 33 edges, the least that get a table, after random bytes, and characters of
    three pages for each node."""
    return ranges_behind_prefixes(33, count, seed, 130)


def mapping_lines(size: int) -> bytes:
    """As many mappings as fit `size` bytes, without an end: all are read before the text is refused."""
    lines, length, at = [HEADER], len(HEADER), 0
    while length < size - 40:
        lines.append(single(FIRST + at, code(at, 5)))
        length += len(lines[-1])
        at += 1
    return "".join(lines).encode()
