"""c_library.py LIBRARY WHERE: does what goes_on.py does, by the C library. Prints `CONVERSIONS WRONG FAILED CONNECTIONS`."""

from __future__ import annotations

import ctypes
import sys
from ctypes import POINTER, byref, c_char_p, c_int, c_size_t, c_uint, c_uint64, c_void_p

from goes_on import PATIENCE, THREADS, Worker, text_of, work_until_told

OK = 0


class Options(ctypes.Structure):
    """iconvd_options."""

    _fields_ = [("streams", c_uint), ("timeout", c_int), ("charmaps", c_char_p), ("log", c_void_p), ("context", c_void_p)]


class Counters(ctypes.Structure):
    """iconvd_counters."""

    _fields_ = [("conversions", c_uint64), ("round_trips", c_uint64), ("connections", c_uint64), ("uploads", c_uint64)]


class Library:
    """The functions of libiconvd that are used here. Python's other threads run while one of them does."""

    def __init__(self, path: str, where: str) -> None:
        self._library = ctypes.CDLL(path)
        self._library.iconvd_status_text.restype = c_char_p
        self._library.iconvd_convert.argtypes = [c_void_p, POINTER(c_char_p), POINTER(c_size_t), POINTER(c_char_p), POINTER(c_size_t), c_void_p]
        self._library.iconvd_open.argtypes = [c_void_p, c_char_p, c_char_p, c_int, POINTER(c_void_p)]
        self._library.iconvd_close.argtypes = [c_void_p]
        self._library.iconvd_count.argtypes = [c_void_p, POINTER(Counters)]
        self._pool = c_void_p()
        options = Options(streams=THREADS, timeout=1000 * PATIENCE)
        self._must(self._library.iconvd_connect(where.encode(), byref(options), byref(self._pool)))

    def _must(self, status: int) -> None:
        if status != OK:
            raise RuntimeError(self._library.iconvd_status_text(status).decode())

    def open(self, to: str, source: str) -> c_void_p:
        descriptor = c_void_p()
        self._must(self._library.iconvd_open(self._pool, to.encode(), source.encode(), 0, byref(descriptor)))
        return descriptor

    def convert(self, descriptor: c_void_p, data: bytes) -> bytes:
        """Converts a whole text."""
        room = ctypes.create_string_buffer(4 * len(data))
        into = c_char_p(ctypes.addressof(room))
        left, free = c_size_t(len(data)), c_size_t(len(room))
        self._must(self._library.iconvd_convert(descriptor, byref(c_char_p(data)), byref(left), byref(into), byref(free), None))
        return room.raw[: len(room) - free.value]

    def close(self, descriptor: c_void_p) -> None:
        self._library.iconvd_close(descriptor)

    def connections(self) -> int:
        counters = Counters()
        self._library.iconvd_count(self._pool, byref(counters))
        return int(counters.connections)


class CWorker(Worker):
    """A thread with a descriptor of its own, on streams that all threads share."""

    def __init__(self, library: Library, first: int) -> None:
        super().__init__(first)
        self._library = library

    def run(self) -> None:
        descriptor = self._library.open("UTF-8", "KOI8-R")
        self.work(lambda number: self._library.convert(descriptor, text_of(number).encode("koi8-r")))
        self._library.close(descriptor)


def main() -> None:
    library = Library(sys.argv[1], sys.argv[2])
    print(*work_until_told([CWorker(library, number) for number in range(THREADS)]), library.connections())


if __name__ == "__main__":
    main()
