"""How many threads a program starts, as the kernel reports it to a tracer."""
from __future__ import annotations

import ctypes
import os
import signal
import tempfile

TRACE_ME, CONTINUE, SET_OPTIONS = 0, 7, 0x4200
TRACE_CLONE, EXIT_KILL = 1 << 3, 1 << 20
CLONE = 3
ALL_CHILDREN = 0x40000000


def ptrace(request: int, process: int, data: int = 0) -> None:
    library = ctypes.CDLL(None, use_errno=True)
    library.ptrace.argtypes = [ctypes.c_long, ctypes.c_long, ctypes.c_void_p, ctypes.c_void_p]
    if library.ptrace(request, process, None, data) != 0:
        raise OSError(ctypes.get_errno(), "ptrace")


def start(words: list[str], path: str) -> int:
    """A traced child whose standard input is a file. It stops at its start."""
    child = os.fork()
    if child == 0:
        os.dup2(os.open(path, os.O_RDONLY), 0)
        os.dup2(os.open(os.devnull, os.O_WRONLY), 1)
        ptrace(TRACE_ME, 0)
        os.execv(words[0], words)
    return child


def started(words: list[str], given: bytes) -> int:
    """How many threads a command starts for a standard input."""
    with tempfile.NamedTemporaryFile() as file:
        file.write(given)
        file.flush()
        child = start(words, file.name)
        os.waitpid(child, 0)
        ptrace(SET_OPTIONS, child, TRACE_CLONE | EXIT_KILL)
        ptrace(CONTINUE, child)
        count = 0
        while True:
            traced, status = os.waitpid(-1, ALL_CHILDREN)
            if not os.WIFSTOPPED(status):
                if traced == child:
                    return count
                continue
            stop, event = os.WSTOPSIG(status), status >> 16
            count += event == CLONE
            passed = 0 if event or stop in (signal.SIGTRAP, signal.SIGSTOP) else stop
            ptrace(CONTINUE, traced, passed)
