"""The speed of conversions: crates/bench_convert and other libraries, on the texts of bench/pairs, in turns of one run."""
from __future__ import annotations

import glob
import gzip
import os
import shutil
import struct
import subprocess
import sys
from typing import Iterator, NamedTuple

from figures import Figure, Figures, loaded

HERE = os.path.dirname(os.path.abspath(__file__))
OUT = os.path.join(os.path.dirname(HERE), "out")
OURS = "iconvd"
CALLS = [64, 65536]
PUT, OPEN, CONV = 1, 3, 4
OK = 0
MOST_ROOM = 1_000_000
EVERY = ["ascii", "latin", "cyrillic", "cjk", "emoji", "mixed"]
# Source, target, and the texts that both have.
PAIRS = [
    ("UTF-8", "UTF-16LE", EVERY),
    ("UTF-16LE", "UTF-8", EVERY),
    ("UTF-8", "UTF-8", EVERY),
    ("UTF-8", "UTF-16BE", ["ascii", "cjk"]),
    ("UTF-16LE", "UTF-16BE", ["cjk", "emoji"]),
    ("ISO-8859-1", "UTF-8", ["latin"]),
    ("UTF-8", "ISO-8859-1", ["latin"]),
    ("UTF-8", "UTF-32LE", ["cjk"]),
    ("UTF-32LE", "UTF-8", ["cjk"]),
    ("UTF-7", "UTF-8", ["cyrillic", "cjk"]),
    ("UTF-8", "UTF-7", ["cyrillic", "cjk"]),
    ("KOI8-U", "UTF-8", ["cyrillic"]),
    ("UTF-8", "KOI8-U", ["cyrillic"]),
    ("EUC-KR", "UTF-8", ["hangul"]),
    ("UTF-8", "EUC-KR", ["hangul"]),
]
UPLOADED = {"KOI8-U", "EUC-KR"}
CHARMAPS = "/usr/share/i18n/charmaps"


class Library(NamedTuple):
    """A library to measure, its program in the Makefile, and the file and the compiler that it needs, with their packages."""
    name: str
    program: str
    file: str
    package: str
    compiler: str
    compilers_package: str

    def lacks(self) -> str | None:
        """Which of these are missing, or None."""
        if not glob.glob(self.file) and not glob.glob(f"{OUT}/libnode{self.file}"):
            return f"there is no {self.file}, which Debian's {self.package} has"
        if not shutil.which(self.compiler):
            return f"there is no {self.compiler}, which Debian's {self.compilers_package} has"
        return None


LIBRARIES = [
    Library("glibc", "glibc", "/usr/include/iconv.h", "libc6-dev", "cc", "gcc"),
    Library("ICU", "icu", "/usr/include/unicode/ucnv.h", "libicu-dev", "cc", "gcc"),
    Library("encoding_rs", "encoding_rs", "/usr/share/cargo/registry/encoding_rs-*/Cargo.toml", "librust-encoding-rs-dev", "rustc", "rustc"),
    Library("simdutf", "simdutf", "/usr/lib/*/libnode.so.108", "libnode108", "c++", "g++"),
]


class Row(NamedTuple):
    """A conversion of a text, which each library does. The charmap is that of the side for which iconvd needs one."""
    source: str
    target: str
    text: str
    data: bytes
    charmap: bytes

    def title(self) -> str:
        return f"{self.source} to {self.target}, {self.text}"


def charmap(source: str, target: str) -> bytes | None:
    """The charmap of the side that isn't built in, empty if both are; None if the system doesn't have it."""
    for name in UPLOADED & {source, target}:
        try:
            with gzip.open(f"{CHARMAPS}/{name}.gz") as opened:
                return opened.read()
        except OSError:
            return None
    return b""


def rows(figures: Figures, size: int) -> Iterator[Row]:
    """All conversions of texts of `size` characters, except those whose charmap the system doesn't have."""
    pairs = loaded("pairs")
    texts = pairs.texts(size) | {"hangul": pairs.seeded(size, pairs.HANGUL, 6)}
    for source, target, names in PAIRS:
        found = charmap(source, target)
        if found is None:
            figures.say("left out", f"{source} to {target}: {CHARMAPS} has no charmap, which Debian's locales has")
            continue
        for name in names:
            yield Row(source, target, name, pairs.spelled(texts[name], source), found)


def frame(op: int, body: bytes) -> bytes:
    return struct.pack(">IIIB", 9 + len(body), 1, 0, op) + body


def served(program: str, row: Row) -> bytes:
    """The row's output by one CONV of iconvd, which the last reply has."""
    names = b"".join(bytes([len(name)]) + name.encode() for name in (row.target, row.source))
    frames = frame(OPEN, names) + frame(CONV, struct.pack(">II", 0, MOST_ROOM) + row.data)
    if row.charmap:
        frames = frame(PUT, row.charmap) + frames
    replies = subprocess.run([program, "pipe"], input=frames, stdout=subprocess.PIPE, check=True).stdout
    at = 0
    while at + 4 + (size := struct.unpack_from(">I", replies, at)[0]) < len(replies):
        at += 4 + size
    if replies[at + 12] != OK:
        raise ValueError(f"iconvd doesn't convert {row.title()} whole: status {replies[at + 12]}")
    return replies[at + 13 + 8:]


def built(figures: Figures) -> dict[str, str]:
    """The programs of the libraries whose packages are installed, by name. The others are left out, and named."""
    programs = {}
    for library in LIBRARIES:
        if lacks := library.lacks():
            figures.say("left out", f"{library.name}: {lacks}")
            continue
        subprocess.run(["make", "--silent", "-C", HERE, library.program], check=True, stdout=sys.stderr)
        programs[library.name] = os.path.join(OUT, library.program)
        figures.say("library", subprocess.run([programs[library.name]], stdout=subprocess.PIPE, text=True, check=True).stdout.strip())
    return programs


def agreeing(figures: Figures, program: str, programs: dict[str, str], row: Row) -> dict[str, str]:
    """The programs that have the row's conversion and write the same bytes as iconvd, in calls of each size."""
    expected, found = served(program, row), {}
    for name, peer in programs.items():
        outputs = [subprocess.run([peer, row.target, row.source, str(call), "0"], input=row.data, stdout=subprocess.PIPE) for call in CALLS]
        if any(done.returncode != 0 for done in outputs):
            continue
        if all(done.stdout == expected for done in outputs):
            found[name] = peer
        else:
            figures.say("left out", f"{name}, {row.title()}: its output has other bytes")
    return found


class Job(NamedTuple):
    """A row by a library, in calls of a number of bytes: the command, and its standard input."""
    name: str
    row: Row
    call: int
    words: list[str]
    given: bytes

    def nanoseconds(self) -> int:
        return int(subprocess.run(self.words, input=self.given, stdout=subprocess.PIPE, check=True).stdout)


def job(path: str, name: str, row: Row, call: int, rounds: int) -> Job:
    times = [str(call), str(rounds)]
    if name != OURS:
        return Job(name, row, call, [path, row.target, row.source, *times], row.data)
    ends = ["charmap" if end in UPLOADED else end for end in (row.target, row.source)]
    return Job(name, row, call, [path, *ends, *times, "substitute", str(len(row.charmap))], row.charmap + row.data)


def turn(at: int, turns: int, jobs: list[Job]) -> list[int]:
    """The nanoseconds of each job, one after the other."""
    print(f"conversions: turn {at + 1} of {turns}", file=sys.stderr, flush=True)
    return [each.nanoseconds() for each in jobs]


def measure(figures: Figures, program: str, bench: str, turns: int, size: int, rounds: int) -> None:
    """Adds the megabytes of input a second of each row by each library, from the fastest round of all turns. Each turn measures all rows,
    so that other work on the machine slows all alike."""
    programs, jobs = built(figures), []
    for row in rows(figures, size):
        peers = {OURS: bench} | agreeing(figures, program, programs, row)
        jobs += [job(path, name, row, call, rounds) for call in CALLS for name, path in peers.items()]
    for each, spent in zip(jobs, map(min, zip(*(turn(at, turns, jobs) for at in range(turns))))):
        figures.add(Figure("conversions", each.name, each.row.title(), each.call, 1, len(each.row.data) * 1000 / spent, "MB/s"))
