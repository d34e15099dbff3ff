"""The service of a soak: one server at a time, at a listener that outlives it. The next one replaces it without a pause."""

from __future__ import annotations

import asyncio
import math
import os
import socket
import subprocess
import sys
import time
from typing import List, NamedTuple, Optional

OPTIONS = ["--at-once", "32", "--idle", "60", "--stream-memory", "6M", "--callers", "10000", "--drain", "10"]
#: The soak fails if a drain takes longer than this many seconds.
PATIENCE = 120


class Server:
    """A process that serves, with admin pages."""

    def __init__(self, program: str, listener: socket.socket, log: str) -> None:
        self._program = program
        self._log = log
        words = [program, "listen", f"fd:{listener.fileno()}", "--admin", "127.0.0.1:0", *OPTIONS]
        with open(log, "w", encoding="utf-8") as errors:
            self._process = subprocess.Popen(words, pass_fds=[listener.fileno()], stdout=subprocess.PIPE, stderr=errors, text=True)
        assert self._process.stdout
        lines = [self._process.stdout.readline(), self._process.stdout.readline()]
        if not all(lines):
            sys.exit(f"soak: {program} does not listen; see {log}")
        self._admin = lines[1].split()[1]
        self.process = self._process.pid

    def status(self) -> Optional[int]:
        """Its exit status, if it has ended."""
        return self._process.poll()

    async def ask(self, page: str) -> str:
        """Asks an admin page. Raises OSError if that fails."""
        words = [self._program, "admin", self._admin, page]
        asking = await asyncio.create_subprocess_exec(*words, stdout=asyncio.subprocess.PIPE, stderr=asyncio.subprocess.PIPE)
        text, errors = await asking.communicate()
        if asking.returncode != 0:
            raise OSError(f"{page}: status {asking.returncode}: {errors.decode()}")
        return text.decode()

    async def drain(self) -> str:
        """Drains it, and waits until it has ended. Returns what is wrong, or an empty text."""
        try:
            await self.ask("drain")
        except OSError as error:
            return str(error)
        try:
            ended = await asyncio.to_thread(self._process.wait, PATIENCE)
        except subprocess.TimeoutExpired:
            return "a drain does not end"
        with open(self._log, encoding="utf-8") as log:
            last = (log.readlines() or [""])[-1]
        return "" if ended == 0 and last.startswith("iconvd: drained in ") else f"a drained server ends with status {ended} and {last!r}"

    def kill(self) -> None:
        self._process.kill()
        self._process.wait()


class Drain(NamedTuple):
    """The start and the end of a drain, by time.monotonic()."""

    begin: float
    end: float


class Service:
    """The serving server, and the one before it while it drains."""

    def __init__(self, program: str, out: str) -> None:
        self._program = program
        self._out = out
        self._listener = socket.create_server(("127.0.0.1", 0), backlog=256)
        self.port = int(self._listener.getsockname()[1])
        self.drains: List[Drain] = []
        self.wrong: List[str] = []
        self.servers = [self._start()]

    def _start(self) -> Server:
        return Server(self._program, self._listener, os.path.join(self._out, f"server{len(self.drains)}.log"))

    @property
    def process(self) -> int:
        """The process that serves new streams."""
        return self.servers[-1].process

    async def replace(self) -> None:
        """Starts a server at the same listener, and drains the one before it."""
        self.drains.append(Drain(time.monotonic(), math.inf))
        self.servers.append(await asyncio.to_thread(self._start))
        if wrong := await self.servers[0].drain():
            self.wrong.append(wrong)
            self.servers[0].kill()
        del self.servers[0]
        self.drains[-1] = self.drains[-1]._replace(end=time.monotonic())

    def may_end(self, begun: float) -> bool:
        """Whether a drain may have ended a stream that was opened after this time."""
        return any(begun < drain.end for drain in self.drains)

    def lives(self) -> bool:
        """Whether the serving server runs."""
        return self.servers[-1].status() is None

    def kill(self) -> None:
        for server in self.servers:
            server.kill()
        self._listener.close()
