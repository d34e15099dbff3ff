"""Runs the examples of a document: the program has to print what the document shows.

An example is a block of code of one of three kinds: commands after `$ `, each followed by what it prints; a script, whose reply
lines are the next block; or request frames in hexadecimal, whose reply frames are the next block.
"""
from __future__ import annotations

import os
import re
import subprocess
import tempfile
from collections.abc import Iterator
from pathlib import Path

Block = tuple[int, list[str]]
Finding = tuple[int, str]

REQUEST = re.compile(r"\d+ \d+ (?:put|part|drop|open|conv|reset|close|bye|raw)\b")
REPLY = re.compile(r"\d+ \d+ [A-Z0-9]+ (?:-|[0-9a-f]+)$")
FRAME = re.compile(r"[0-9a-f]{8}(?: [0-9a-f]{2,})+$")
SECONDS = 20


def unescaped(line: str) -> str:
    """A line of a manual page without roff's escapes."""
    return line.replace(r"\e", "\\").replace(r"\-", "-")


def blocks(lines: list[str], manual: bool) -> Iterator[Block]:
    """The blocks of code of a page, each with the number of its first line."""
    begin = 0
    block: list[str] = []
    inside = False
    for number, line in enumerate([*lines, ""], 1):
        if manual:
            inside = line != ".fi" and (inside or line == ".nf")
        is_code = inside and line != ".nf" if manual else line.startswith("    ")
        if is_code:
            begin = begin if block else number
            block.append(unescaped(line) if manual else line[4:])
        elif block:
            yield begin, block
            block = []


class Session:
    """Runs the commands of one page in a folder of their own, with the program as `iconvd`. A server listens at a port that the system chooses."""

    def __init__(self, program: Path, folder: str) -> None:
        programs = Path(folder) / "bin"
        programs.mkdir()
        os.symlink(program, programs / "iconvd")
        self.folder = folder
        self.environment = {**os.environ, "PATH": f"{programs}:{os.environ['PATH']}"}
        self.addresses: dict[str, str] = {}
        self.servers: list[subprocess.Popen[str]] = []

    def run(self, command: str, shown: list[str]) -> str | None:
        """What is wrong with the output of a command, or None."""
        for shown_address, address in self.addresses.items():
            command = command.replace(shown_address, address)
        if command.endswith(" &"):
            return self.start(command[:-2], shown)
        words = ["sh", "-c", command]
        done = subprocess.run(words, cwd=self.folder, env=self.environment, capture_output=True, text=True, timeout=SECONDS)
        printed = done.stdout.splitlines()
        return None if printed == shown else f"`{command}` prints {printed} {done.stderr.strip()}"

    def start(self, command: str, shown: list[str]) -> str | None:
        anywhere = re.sub(r"(listen [\d.]+):\d+", r"\1:0", command)
        server = subprocess.Popen(["sh", "-c", f"exec {anywhere}"], cwd=self.folder, env=self.environment, stdout=subprocess.PIPE, text=True)
        self.servers.append(server)
        assert server.stdout is not None
        line = server.stdout.readline().strip()
        if len(shown) != 1 or not line.startswith("listening ") or not shown[0].startswith("listening "):
            return f"`{anywhere}` prints {line!r}"
        self.addresses[shown[0].split()[1]] = line.split()[1]
        return None

    def close(self) -> None:
        for server in self.servers:
            server.kill()
            server.wait()


def commands(block: Block) -> Iterator[tuple[int, str, list[str]]]:
    """The commands of a block, each with what it prints."""
    begin, lines = block
    starts = [i for i, line in enumerate(lines) if line.startswith("$ ")]
    for start, end in zip(starts, [*starts[1:], len(lines)]):
        yield begin + start, lines[start][2:], lines[start + 1 : end]


def is_all(block: Block, pattern: re.Pattern[str]) -> bool:
    return all(pattern.match(line) for line in block[1])


def run_script(program: Path, request: Block, reply: Block) -> str | None:
    """What is wrong with the reply lines to a script, or None."""
    script = "\n".join(request[1]).encode()
    printed = subprocess.run([program, "run"], input=script, capture_output=True, timeout=SECONDS).stdout.decode()
    return None if printed.splitlines() == reply[1] else f"the script's replies are {printed!r}"


def serve_frames(program: Path, request: Block, reply: Block) -> str | None:
    """What is wrong with the reply frames to request frames, or None."""
    frames = bytes.fromhex("".join(request[1]))
    replies = subprocess.run([program, "pipe"], input=frames, capture_output=True, timeout=SECONDS).stdout.hex()
    return None if replies == "".join(reply[1]).replace(" ", "") else f"the frames' replies are {replies}"


def exchanges(program: Path, found: list[Block]) -> Iterator[Finding]:
    """Compares each script and each block of frames with the next block of replies of its kind."""
    script: Block | None = None
    frames: Block | None = None
    for block in found:
        wrong = None
        if is_all(block, REQUEST):
            script = block
        elif is_all(block, REPLY) and script is not None:
            wrong, script = run_script(program, script, block), None
        elif is_all(block, FRAME) and frames is not None:
            wrong, frames = serve_frames(program, frames, block), None
        elif is_all(block, FRAME):
            frames = block
        if wrong:
            yield block[0], wrong


def findings(lines: list[str], manual: bool, program: Path) -> Iterator[Finding]:
    """Each example of a page whose output is not what the page shows."""
    found = list(blocks(lines, manual))
    yield from exchanges(program, found)
    with tempfile.TemporaryDirectory() as folder:
        session = Session(program, folder)
        try:
            for block in found:
                for number, command, shown in commands(block):
                    if "LD_PRELOAD" not in command and command.startswith(("printf", "gzip", "iconvd ", "echo")):
                        wrong = session.run(command, shown)
                        if wrong:
                            yield number, wrong
        finally:
            session.close()
