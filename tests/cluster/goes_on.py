"""goes_on.py WHERE: converts by the Python library with four threads until standard input ends, while servers end and start.

Each text has its number in it, which shows conversions that are lost or answered twice. Prints `CONVERSIONS WRONG FAILED CONNECTIONS`.
"""

from __future__ import annotations

import sys
import threading
import time
from typing import Callable, List, Sequence, Tuple

THREADS = 4
PAUSE = 0.02
#: How many seconds a reply may take: far longer than the 30 s after which tcp-ut ends a stream whose server is cut off, where HAProxy did not.
PATIENCE = 120


def text_of(number: int) -> str:
    """The text with this number: its digits as twenty letters."""
    return "".join(chr(0x430 + int(digit)) for digit in f"{number:020}")


class Worker(threading.Thread):
    """Converts every fourth text."""

    def __init__(self, first: int) -> None:
        super().__init__()
        self._number = first
        self.is_over = False
        self.conversions = 0
        self.wrong = 0
        self.failed = 0

    def work(self, convert: Callable[[int], bytes]) -> None:
        """Converts one text after the other, until it is told to stop."""
        while not self.is_over:
            try:
                self.wrong += convert(self._number) != text_of(self._number).encode()
            except (OSError, RuntimeError, ValueError, LookupError) as error:
                print(f"{sys.argv[0]}: number {self._number}: {error}", file=sys.stderr)
                self.failed += 1
            self.conversions += 1
            self._number += THREADS
            time.sleep(PAUSE)


def work_until_told(workers: Sequence[Worker]) -> Tuple[int, int, int]:
    """Runs the threads until standard input ends, and adds up what they counted."""
    for worker in workers:
        worker.start()
    sys.stdin.read()
    for worker in workers:
        worker.is_over = True
    for worker in workers:
        worker.join()
    return sum(worker.conversions for worker in workers), sum(worker.wrong for worker in workers), sum(worker.failed for worker in workers)


class PythonWorker(Worker):
    """A thread with a client of its own."""

    def __init__(self, where: str, first: int) -> None:
        super().__init__(first)
        self._where = where

    def run(self) -> None:
        import iconvd

        with iconvd.Client(self._where, timeout=PATIENCE) as client:
            self.work(lambda number: client.convert(text_of(number).encode("koi8-r"), to="UTF-8", source="KOI8-R"))


def count_connections() -> List[int]:
    """Returns a list that gets an entry for each connection that the Python library makes."""
    from iconvd import transport

    connections: List[int] = []
    connect = transport.Stream._connect

    def counted(stream: transport.Stream, where: transport.Address) -> object:
        connections.append(1)
        return connect(stream, where)

    setattr(transport.Stream, "_connect", counted)
    return connections


def main() -> None:
    connections = count_connections()
    print(*work_until_told([PythonWorker(sys.argv[1], number) for number in range(THREADS)]), len(connections))


if __name__ == "__main__":
    main()
