"""What requests cost `iconvd listen`, with and without `--admin`, by which it counts them. Rows of `bench/instructions`."""

from __future__ import annotations

import re
import socket
import subprocess
import tempfile
from pathlib import Path
from typing import Iterator, NamedTuple

from instruction_rows import conv, opening

TEXT = "Le café est fermé ce lundi, revenez demain matin avant dix heures".encode("ISO-8859-1")[:64]
TURNS = 200
#: After this many seconds without a reply the server is lost.
PATIENCE = 60


class Served(NamedTuple):
    """CONVs of 64 bytes that one write sends, and the next one after their replies. The cost of all of them is counted."""

    name: str
    batch: int
    admin: bool


def served() -> Iterator[Served]:
    for admin in [False, True]:
        what = ", with --admin" if admin else ""
        yield Served(f"a CONV of 64 bytes by TCP{what}", 1, admin)
        yield Served(f"64 CONVs of 64 bytes by TCP{what}", 64, admin)


def take_replies(stream: socket.socket, count: int) -> None:
    """Reads as many replies."""
    held = b""
    while count > 0:
        while len(held) < 4 or len(held) < 4 + int.from_bytes(held[:4], "big"):
            came = stream.recv(65536)
            if not came:
                raise EOFError("the server has ended the stream")
            held += came
        held = held[4 + int.from_bytes(held[:4], "big") :]
        count -= 1


def converse(port: int, row: Served, turns: int) -> None:
    """Opens a descriptor, and converts in as many turns."""
    with socket.create_connection(("127.0.0.1", port), PATIENCE) as stream:
        stream.setsockopt(socket.IPPROTO_TCP, socket.TCP_NODELAY, 1)
        stream.sendall(opening("UTF-8", "ISO-8859-1"))
        take_replies(stream, 1)
        for _turn in range(turns):
            stream.sendall(row.batch * conv(TEXT, 4096))
            take_replies(stream, row.batch)


def collected(iconvd: Path, row: Served, turns: int) -> int:
    """How many instructions the server runs in user space while it serves one stream."""
    with tempfile.TemporaryDirectory() as folder:
        words = ["valgrind", "--tool=callgrind", f"--callgrind-out-file={folder}/out", str(iconvd), "listen", "127.0.0.1:0", "--at-once", "1"]
        words += ["--admin", f"unix:{folder}/admin"] if row.admin else []
        with subprocess.Popen(words, stdout=subprocess.PIPE, stderr=subprocess.PIPE) as server:
            assert server.stdout is not None
            port = int(server.stdout.readline().rpartition(b":")[2])
            converse(port, row, turns)
            server.terminate()
            said = server.communicate(timeout=PATIENCE)[1]
    found = re.search(rb"Collected : (\d+)", said)
    if not found:
        raise RuntimeError(f"callgrind counted nothing: {said[-2000:]!r}")
    return int(found.group(1))


def count_served(iconvd: Path, row: Served) -> int:
    """The instructions of a turn, from the difference between a server of some turns and one of three times as many."""
    spent = collected(iconvd, row, 3 * TURNS) - collected(iconvd, row, TURNS)
    return round(spent / (2 * TURNS))
