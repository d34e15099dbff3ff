"""UTF-7: faults with CPython's positions, and text that both read and write."""

from __future__ import annotations

import base64
import random
import unittest
from typing import List

from support import ClientTest, outcome

from iconvd import steps
from iconvd.frames import Status
from iconvd.session import Pair

FAULTY = [
    b"a+IK",
    b"a+IK-b",
    b"a+IK,b",
    b"a+IKx-b",
    b"a+IKwgr-b",
    b"a+IKwgr,",
    b"a+IKwgrB-b",
    b"a+/,+IKw-b",
    b"a+//,+IKw-b",
    b"a+///,+IKw-b",
    b"a+////,+IKw-b",
    b"a+IKw-b\xff",
    b"a+IKw\xffb",
    b"\xff+AOk-\xfe",
    b"+!x",
    b"x+",
    b"+AAk-\xff+AAkAXA-",
    b"+" + b"A" * 30 + b"\xff",
]


class Shifted(ClientTest):
    def texts(self) -> List[bytes]:
        chance = random.Random(7)
        found = list(FAULTY)
        for _ in range(150):
            text = "".join(chance.choice("ab \t+-é€\U0001f600~\\\n") for _ in range(chance.randrange(12)))
            data = bytearray(text.replace("\\", "").replace("~", "").encode("utf-7"))
            if data:
                data[chance.randrange(len(data))] = chance.choice(b"+-AQg/!\xff\x80 ")
            found.append(bytes(data))
        return found

    def test_faults_beside_cpython(self) -> None:
        for data in self.texts():
            if any(0xD800 <= ord(c) < 0xE000 for c in data.decode("utf-7", "replace")) or has_zero_bits_over(data):
                continue
            for errors in ("strict", "replace", "ignore", "backslashreplace"):
                wanted = outcome(lambda: data.decode("utf-7", errors))
                self.assertEqual(outcome(lambda: self.client.decode(data, "UTF-7", errors)), wanted, (data, errors))

    def test_faults_are_the_server_s(self) -> None:
        encoding = self.client.library.find("UTF-7")
        form = self.client.library.form(encoding)
        for data in self.texts():
            at, faults, is_open = 0, 0, False
            while at < len(data):
                found = form.find(data, at, len(data))
                at, faults, is_open = found.end, faults + bool(found.reason), found.is_cut
            ran = self.client.run(lambda session: steps.run(session, Pair(steps.UTF_8, encoding), data))
            if not is_open:
                self.assertEqual(faults == 0, ran.status == Status.OK, data)

    def test_lone_surrogates(self) -> None:
        data = b"a+" + base64.b64encode("x\ud800y".encode("utf-16-be", "surrogatepass")).rstrip(b"=") + b"-b"
        self.assertEqual(self.client.decode(data, "UTF-7", "replace"), "ax\ufffdb")
        with self.assertRaises(UnicodeDecodeError) as raised:
            self.client.decode(data, "UTF-7")
        self.assertEqual((raised.exception.start, raised.exception.end), (1, len(data) - 1))

    def test_encoding(self) -> None:
        text = "é+\ud800ж-\t+\udfffa\t"
        self.assertEqual(self.client.encode(text, "UTF-7", "replace").decode("utf-7"), text.replace("\ud800", "?").replace("\udfff", "?"))
        with self.assertRaises(UnicodeEncodeError) as raised:
            self.client.encode(text, "UTF-7")
        self.assertEqual((raised.exception.start, raised.exception.end), (2, 3))

    def test_a_long_sequence_with_a_fault(self) -> None:
        text = "中" * 200_000 + "\t" + "b" * 100_000
        data = self.client.encode(text, "UTF-7")
        self.assertEqual(self.client.decode(data + b"\xff" + data, "UTF-7", "replace"), text + "\ufffd" + text)
        self.assertEqual(self.client.decode(b"\xff" + data, "UTF-7", "ignore"), text)


def has_zero_bits_over(data: bytes) -> bool:
    """Whether a shifted sequence ends with a digit of zero bits too many, which the service reads and CPython does not."""
    try:
        data.decode("utf-7")
    except UnicodeDecodeError as error:
        return error.reason == "partial character in shift sequence"
    return False


if __name__ == "__main__":
    unittest.main()
