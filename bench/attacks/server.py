"""A server of frames to attack, and what it costs."""
from __future__ import annotations

import collections
import contextlib
import os
import re
import resource
import socket
import struct
import subprocess
import threading
import time
from typing import NamedTuple

PUT, DROP, OPEN, CONV, RESET, CLOSE, BYE, PART = range(1, 9)
STATUSES = ["OK", "E2BIG", "EILSEQ", "EINVAL", "EBADF", "EMFILE", "ENOMEM", "UNSUPPORTED", "BADREQ", "BADMAP", "EXISTS", "NONAME", "BUSY",
            "QUOTA", "ROOM", "ENOCHAR"]
READ = 65536
MOST_BODY = 1_048_567
MOST_PART = 1_000_000
# The clock of a process's own time, as the kernel numbers it: clock_getcpuclockid().
PROCESS_CLOCK = 2


def frame(caller: int, op: int, body: bytes = b"") -> bytes:
    return struct.pack(">IIIB", 9 + len(body), caller, 0, op) + body


def opening(caller: int, target: str = "UTF-16BE", source: str = "UTF-8") -> bytes:
    return frame(caller, OPEN, b"".join(bytes([len(name)]) + name.encode() for name in (target, source)))


def uploading(caller: int, text: bytes) -> list[bytes]:
    """The frames of an upload: a PUT, after PARTs if one frame can't hold the text."""
    parts = [text[at:at + MOST_PART] for at in range(0, len(text), MOST_PART)] if len(text) > MOST_BODY else [text]
    return [frame(caller, PART, part) for part in parts[:-1]] + [frame(caller, PUT, parts[-1])]


class Reply(NamedTuple):
    status: str
    body: bytes


class Ended(Exception):
    """The server ended the stream."""


class Server:
    """`PROGRAM pipe`. With `packets` it reads each write to its standard input in one read. A limit is of its data, in bytes."""

    def __init__(self, program: str, packets: bool = False, limit: int | None = None) -> None:
        ours, theirs = socket.socketpair(socket.AF_UNIX, socket.SOCK_SEQPACKET if packets else socket.SOCK_STREAM)
        limited = None if limit is None else lambda: resource.setrlimit(resource.RLIMIT_DATA, (limit, limit))
        self.process = subprocess.Popen([program, "pipe"], stdin=theirs, stdout=subprocess.PIPE, stderr=subprocess.DEVNULL, preexec_fn=limited)
        theirs.close()
        self.requests = ours
        self.replies = self.process.stdout

    def __enter__(self) -> "Server":
        return self

    def __exit__(self, *_: object) -> None:
        self.requests.close()
        self.replies.close()
        self.process.wait()

    def send(self, frames: bytes, piece: int = READ) -> None:
        for at in range(0, len(frames), piece):
            self.requests.sendall(frames[at:at + piece])

    def read(self, size: int) -> bytes:
        found = self.replies.read(size)
        if len(found) < size:
            raise Ended
        return found

    def reply(self) -> Reply:
        size, _, _, status = struct.unpack(">IIIB", self.read(13))
        return Reply(STATUSES[status], self.read(size - 9))

    def ask(self, *frames: bytes, piece: int = READ) -> list[Reply]:
        """Sends frames in pieces, and meanwhile reads a reply for each, or fewer if the server ends the stream."""
        def sending() -> None:
            with contextlib.suppress(OSError):
                self.send(b"".join(frames), piece)

        writer = threading.Thread(target=sending)
        writer.start()
        found = []
        with contextlib.suppress(Ended):
            for _ in frames:
                found.append(self.reply())
        writer.join()
        return found

    def busy(self) -> float:
        """The processor seconds that all threads of the server have used."""
        return time.clock_gettime((~self.process.pid << 3) | PROCESS_CLOCK)

    def cost(self, *frames: bytes, piece: int = READ) -> float:
        """The processor seconds that frames take."""
        start = self.busy()
        self.ask(*frames, piece=piece)
        return self.busy() - start

    def memory(self, name: str) -> int:
        """The bytes of a line of /proc/PID/status: VmRSS, VmHWM, VmData."""
        with open(f"/proc/{self.process.pid}/status") as status:
            return 1024 * int(re.search(rf"{name}:\s+(\d+) kB", status.read()).group(1))


def statuses(server: Server, *requests: bytes) -> str:
    """The statuses of the replies to requests, each with its number of replies."""
    replies = server.ask(*requests)
    counted = collections.Counter(reply.status for reply in replies)
    counted["ended"] += len(replies) < len(requests)
    return ", ".join(f"{count} {status}" if len(requests) > 1 else status for status, count in counted.items() if count > 0)
