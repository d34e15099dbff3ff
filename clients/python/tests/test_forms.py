"""What the client takes for a character is one for the server, and what it takes for a fault is one for the server too."""

from __future__ import annotations

import codecs
import functools
import random
import unittest
from typing import Callable, List, Tuple

from meter import every_form
from support import ClientTest

import iconvd
from iconvd import frames, marks, steps, text
from iconvd.forms import Found
from iconvd.frames import Status
from iconvd.names import Encoding
from iconvd.session import Pair, Session, Steps

#: Ends with what no character of any encoding needs more than.
LONGEST = 8


def ordered(client: iconvd.Client, name: str) -> Encoding:
    return marks.without_mark(client.library.find(name), b"")[0]


def statuses(session: Session, pair: Pair, pieces: List[bytes]) -> Steps[List[frames.Converted]]:
    """Converts each piece by itself."""
    descriptor = yield from session.descriptor(pair)
    replies = yield [frames.convert_request(descriptor.caller, descriptor.number, 1000, piece) for piece in pieces]
    return [frames.read_converted(reply, len(piece)) for reply, piece in zip(replies, pieces)]


def handled(handler: Callable[[UnicodeError], Tuple[str, int]], error: UnicodeError) -> Tuple[str, int]:
    """What a handler of Python's own does, as a program's."""
    return handler(error)


class Agreement(ClientTest):
    def samples(self, name: str) -> List[bytes]:
        """All bytes, random ones, and characters of the encoding, some of them damaged."""
        chance = random.Random(name)
        good = bytearray(self.client.encode("".join(map(chr, range(1, 0x3000, 7))), name, "ignore"))
        damaged = bytearray(good)
        for at in range(0, len(damaged), 5):
            damaged[at] = chance.randrange(256)
        return [bytes(range(256)), chance.randbytes(1500), bytes(good), bytes(damaged)]

    def found(self, encoding: Encoding, data: bytes) -> List[Found]:
        form = self.client.library.form(encoding)
        at, found = 0, []
        while at < len(data):
            found.append(form.find(data, at, len(data)))
            at = found[-1].end
        return found

    def test_decoding(self) -> None:
        for name in every_form():
            encoding = ordered(self.client, name)
            if encoding.name == "UTF-7":
                continue  # its descriptor has a state; see test_shifted.py
            form, pair = self.client.library.form(encoding), Pair(steps.UTF_8, encoding)
            for data in self.samples(name):
                found = self.found(encoding, data)
                good = form.separator.join(item.good for item in found)
                ran = self.client.run(lambda session: steps.run(session, pair, good))
                self.assertEqual((ran.status, ran.used), (Status.OK, len(good)), name)
                bad = [data[item.start : item.start + LONGEST] for item in found if item.reason]
                for piece, converted in zip(bad, self.client.run(lambda session: statuses(session, pair, bad))):
                    self.assertEqual(converted.left, len(piece), (name, piece))

    def test_faults_at_once(self) -> None:
        """All faults of a piece are found at once for Python's own handlers, and one by one for those of a program."""
        for kind in ("replace", "ignore", "backslashreplace"):
            codecs.register_error("test." + kind, functools.partial(handled, codecs.lookup_error(kind)))
        for name in every_form():
            chance = random.Random(name)
            kind = chance.choice(("replace", "replace", "ignore", "backslashreplace"))
            for data in self.samples(name):
                piece = data[: chance.randrange(1, 3000)]
                wanted = self.client.decode(piece, name, "test." + kind)
                self.assertEqual(self.client.decode(piece, name, kind), wanted, (name, kind, piece))
                decoder = self.client.decoder(name, name)
                size = chance.randrange(1, 400)
                text, held = "", b""
                for at in range(0, len(piece), size):
                    held += piece[at : at + size]
                    decoded, used = decoder.decode(held, kind, at + size >= len(piece))
                    text, held = text + decoded, held[used:]
                self.assertEqual(text, wanted, (name, kind, size, piece))

    def test_encoding(self) -> None:
        for name in every_form():
            encoding = ordered(self.client, name)
            if encoding.name == "UTF-7":
                continue
            form, pair = self.client.library.form(encoding), Pair(encoding, steps.UTF_8)
            chance = random.Random(name)
            characters = [chr(chance.choice((chance.randrange(0x500), chance.randrange(0x10000), chance.randrange(0x110000)))) for _ in range(900)]
            good = "".join(c for c in characters if form.lacks(c) is None)
            ran = self.client.run(lambda session: steps.run(session, pair, good.encode()))
            self.assertEqual(ran.status, Status.OK, name)
            lacking = [c.encode("utf-8", "surrogatepass") for c in characters if form.lacks(c) is not None]
            for c, converted in zip(lacking, self.client.run(lambda session: statuses(session, pair, lacking))):
                self.assertEqual(converted.left, len(c), (name, c))


if __name__ == "__main__":
    unittest.main()
