"""The progress line: only on a terminal, rewritten, and removed before anything else is printed."""

from __future__ import annotations

import fcntl
import os
import pty
import re
import struct
import subprocess
import tempfile
import termios
import threading
from typing import List, NamedTuple

from runs import PROGRAM, Benchmark
from servers import OK, ToldServer, listening


class Shown(NamedTuple):
    status: int
    output: str
    terminal: str

    def rewritten(self) -> List[str]:
        """The successive texts of the terminal's first line."""
        return [line.rstrip() for line in self.terminal.split("\n", maxsplit=1)[0].split("\r")[1:] if line.strip()]


def on_terminal(words: List[str], where: str, columns: int = 100) -> Shown:
    """Runs the program with only its standard error on a terminal."""
    ours, theirs = pty.openpty()
    fcntl.ioctl(theirs, termios.TIOCSWINSZ, struct.pack("HHHH", 24, columns, 0, 0))
    read: List[bytes] = []

    def keep_reading() -> None:
        try:
            while data := os.read(ours, 65536):
                read.append(data)
        except OSError:  # the last one that had the terminal has closed it
            pass

    reader = threading.Thread(target=keep_reading)
    reader.start()
    done = subprocess.run([PROGRAM, *words, where], stdout=subprocess.PIPE, stderr=theirs, text=True, timeout=120, check=False)
    os.close(theirs)
    reader.join()
    os.close(ours)
    return Shown(done.returncode, done.stdout, b"".join(read).decode())


def progress(benchmark: Benchmark) -> None:
    server = ToldServer(lambda stream, asked, op: OK)
    words = ["-s", "2", "-c", "2"]
    shown = on_terminal(words, server.where)
    form = re.compile(r"\d of 2 s: \d+ requests, \d+ a second, 0 errors")
    lines = shown.rewritten()
    far = [line for line in lines if " streams " not in line]
    benchmark.check(bool(far) and all(map(form.fullmatch, far)), "on a terminal a line says how far the run is")
    benchmark.check("\n" not in shown.terminal and len(lines) > 1, "it is rewritten")
    last = shown.terminal.split("\r")[-2:]
    benchmark.check(last == [" " * len(lines[-1]) if lines else "?", ""], "and taken away at the end")
    output = shown.output.splitlines()
    benchmark.check(output[-1:] == ["no errors"] and len(output) == 5 and "\r" not in shown.output, "the output has nothing of it")
    done = benchmark.run(words, server.where)
    benchmark.check(done.returncode == 0 and not done.stderr, "where standard error is no terminal, nothing is shown")
    narrow = on_terminal(words, server.where, 20).rewritten()
    benchmark.check(bool(narrow) and all(len(line) <= 19 for line in narrow), "it never is longer than a line of the terminal")


def what_it_says(benchmark: Benchmark, program: str) -> None:
    with tempfile.TemporaryDirectory() as folder:
        path = os.path.join(folder, "socket")
        with listening(program, path, "--at-once", "2"):
            shown = on_terminal(["-c", "5", "--timeout", "2"], f"unix:{path}")
    lines = shown.rewritten()
    benchmark.check(lines[-2:-1] == ["2 of 5 streams are open"], "while streams are opened it counts them")
    benchmark.check(lines[-1:] != [] and lines[-1].startswith("iconvd-benchmark: unix:"), "a fault is written where the line was")
    ended = threading.Event()

    def end_all(stream: int, asked: int, op: int) -> int | None:
        if asked >= 50 and not ended.is_set():
            ended.set()
            server.take_no_more()
        return OK if asked < 50 else None

    server = ToldServer(end_all)
    shown = on_terminal(["--csv", "-n", "1000", "-c", "2", "--timeout", "3"], server.where)
    away = [line for line in shown.rewritten() if re.fullmatch(r"\d s: the server went away \d s ago", line)]
    benchmark.check(bool(away) and shown.status == 3, "while a server is away it says so")
    benchmark.check(shown.output.startswith("where,") and "\r" not in shown.output, "with --csv the output is as it should be")


def cases(benchmark: Benchmark, program: str) -> None:
    progress(benchmark)
    what_it_says(benchmark, program)
