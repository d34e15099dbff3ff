"""Long charmaps, of which the beginning is uploaded first: what is converted is the same as by all of it."""

from __future__ import annotations

import asyncio
import random
import unittest
from typing import List
from unittest import mock

from meter import metered
from support import SERVER, outcome

import iconvd
from iconvd import charmaps, repairs, transport
from iconvd.charmaps import Beginning
from iconvd.frames import Op, Request

NAME = "GB18030"
#: Characters of the beginning, of the rest, and lacking ones.
SHORT = "a\u00df\u4e2d\uac00\u0100"
LONG = "\U00010000\U00020000\U0002a6d6\U000e0020"
LACKING = "\ue78d\ue791\ud800\U0001ffff"


def texts() -> List[str]:
    chance = random.Random(18030)
    rows = [SHORT, LONG, LACKING, SHORT + LONG + LACKING, SHORT * 30_000 + LONG[1], LONG[1] * 20_000 + LACKING[0]]
    return rows + ["".join(chance.choices(SHORT * 20 + LONG + LACKING, k=100)) for _ in range(6)]


def damaged(data: bytes) -> List[bytes]:
    """Returns a text with its end cut off, and with bytes in it that are none of the encoding's."""
    chance = random.Random(data[:100])
    at = chance.randrange(len(data) + 1)
    cut, mixed = data[: -chance.randrange(1, 4)], data[:at] + chance.randbytes(3) + data[at:]
    return [data, cut, mixed, b"\x95\x32\x82" + data, b"\xff" + data]


class Beginnings(unittest.TestCase):
    """By GB18030's file as it is: its repairs leave a text that is not long."""

    def setUp(self) -> None:
        as_it_is = mock.patch.object(repairs, "_table", return_value={})
        as_it_is.start()
        self.addCleanup(as_it_is.stop)
        self.whole = iconvd.Client(SERVER, timeout=60)
        self.addCleanup(self.whole.close)
        self.whole.upload(NAME)

    def test_the_same(self) -> None:
        """Each text by clients that have the beginning still, and by one that has all of the charmap."""
        for number, text in enumerate(texts()):
            errors = ("strict", "replace", "xmlcharrefreplace", "ignore")[number % 4]
            encoded = text.encode("utf-8", "surrogatepass")
            with iconvd.Client(SERVER, timeout=60) as client:
                both = [outcome(lambda: each.encode(text, NAME, errors)) for each in (client, self.whole)]
                self.assertEqual(*both, (number, errors))
                by_bytes = {"to": NAME, "source": "UTF-8", "errors": errors}
                both = [outcome(lambda: each.convert(encoded, **by_bytes)) for each in (client, self.whole)]
                self.assertEqual(*both, (number, errors))

    def test_the_same_for_bytes(self) -> None:
        for number, text in enumerate(texts()[2:5]):
            for turn, data in enumerate(damaged(self.whole.encode(text, NAME, "ignore") or b"\0")):
                errors = ("strict", "replace", "ignore")[(number + turn) % 3]
                to = ("UTF-8", "UTF-16LE", "UTF-7", NAME)[(number + turn) % 4]
                with iconvd.Client(SERVER, timeout=60) as client:
                    both = [outcome(lambda: each.decode(data, NAME, errors)) for each in (client, self.whole)]
                    self.assertEqual(*both, (number, turn, errors))
                    ends = {"to": to, "source": NAME, "errors": errors}
                    both = [outcome(lambda: each.convert(data, **ends)) for each in (client, self.whole)]
                    self.assertEqual(*both, (number, turn, errors, to))

    def test_what_is_sent(self) -> None:
        """The beginning alone for texts of its characters and for faults, and all of the charmap for others."""
        size = len(charmaps.read_file(NAME))
        rows = [
            (SHORT, b"", 0.75),
            (LACKING[:2], b"\xff", 0.75),
            (LONG, b"", 2),
            ("", b"\x95\x32\x82\x36", 2),
            ("", b"\x81\x20", 0.75),
        ]
        for text, data, share in rows:
            with metered() as meter, iconvd.Client(SERVER, timeout=60) as client:
                client.encode(text, NAME, "replace")
                client.decode(data, NAME, "replace")
                self.assertLess(0.5 * share * size, meter.sent, (ascii(text), data))
                self.assertLess(meter.sent, share * size, (ascii(text), data))

    def test_asyncio(self) -> None:
        """All of the charmap is sent once for any number of conversions at the same time."""
        sent: List[int] = []
        frame = Request.frame

        def counted(request: Request, tag: int) -> bytes:
            sent.append(request.op)
            return frame(request, tag)

        async def ask() -> List[bytes]:
            async with iconvd.AsyncClient(SERVER, timeout=60) as client:
                calls = [client.encode(text, NAME, "replace") for text in (LONG, SHORT, LACKING, SHORT + LONG) * 10]
                return list(await asyncio.gather(*calls))

        with mock.patch.object(Request, "frame", counted):
            found = asyncio.run(ask())
        self.assertEqual(found, [self.whole.encode(text, NAME, "replace") for text in (LONG, SHORT, LACKING, SHORT + LONG) * 10])
        self.assertEqual(sent.count(Op.PUT), 2)

    def test_a_beginning_that_is_refused(self) -> None:
        plain = charmaps.beginning

        def broken(file: str, text: bytes) -> Beginning:
            found = plain(file, text)
            assert found is not None
            wrong = found.charmap._replace(text=found.charmap.text.replace(b"/x40", b"/y40"))
            return found._replace(charmap=wrong)

        with mock.patch.object(charmaps, "beginning", broken), iconvd.Client(SERVER, timeout=60) as client:
            self.assertEqual(client.decode(b"\x81\x40", NAME), "\u4e02")

    def test_a_lost_server(self) -> None:
        with iconvd.Client(SERVER, timeout=60) as client:
            for data in (b"\x81\x40", b"\x95\x32\x82\x36", b"\x81\x40"):
                self.assertEqual(client.decode(data, NAME), self.whole.decode(data, NAME))
                stream = client._stream
                assert isinstance(stream, transport.Stream)
                stream.shut()

    def test_which_files_have_one(self) -> None:
        found = {file for file in charmaps.listed() if charmaps.beginning(file, charmaps.read_file(file))}
        self.assertEqual(found & {"GB18030", "KOI8-R", "EUC-KR", "EUC-JP", "GBK"}, {"GB18030"})


if __name__ == "__main__":
    unittest.main()
