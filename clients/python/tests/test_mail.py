"""A message of many charsets, some of them hostile, decoded by the service as by CPython or with a documented replacement."""

from __future__ import annotations

import email
import email.message
import email.policy
import os
import time
import unittest
from typing import Tuple
from unittest import mock

from support import ClientTest

import iconvd

#: Charset, text.
PARTS = [
    ("us-ascii", "plain"),
    ("utf-8", "naïve ☃"),
    ("iso-8859-1", "café"),
    ("iso-8859-2", "Žluťoučký kůň"),
    ("iso-8859-5", "Привет"),
    ("iso-8859-15", "10 €"),
    ("koi8-r", "Привет, мир"),
    ("koi8-u", "Київ"),
    ("windows-1250", "ąęł"),
    ("windows-1251", "Москва"),
    ("windows-1252", "“quoted”"),
    ("windows-1253", "Ελλάδα"),
    ("windows-1254", "İstanbul"),
    ("utf-16", "sixteen ☃"),
    ("utf-32", "thirty-two"),
    ("utf-7", "séven"),
    ("shift_jis", "日本語"),
    ("gbk", "中文"),
    ("euc-kr", "한국어"),
    ("iso-8859-7", "Ελλάδα"),
]
HOSTILE_CHARSETS = [
    "no-such-charset",
    "<code_set_name> X\nCHARMAP\n<U0041> \\x41\nEND CHARMAP",
    "../../../etc/passwd",
    "utf-8\0",
    "x" * 100_000,
    "iconvd-utf-8",
    "",
]


#: Charsets that the system has a charmap of, which the service refuses.
REFUSED_CHARSETS = ["INIS", "ARABIC7", "ISO_2033-1983", "JIS_C6220-1969-jp", "ISO_5428"]


def part_text(client: iconvd.Client, data: bytes, charset: str) -> str:
    """The text of a part: what can't be decoded is U+FFFD, and a charset that the service has not is taken as US-ASCII."""
    try:
        return client.decode(data, charset, "replace")
    except LookupError:
        return client.decode(data, "US-ASCII", "replace")


class Mail(ClientTest):
    def message(self) -> email.message.EmailMessage:
        message = email.message.EmailMessage(policy=email.policy.SMTP)
        message.make_mixed()
        for charset, text in PARTS:
            part = email.message.MIMEPart()
            part["Content-Type"] = f'text/plain; charset="{charset}"'
            part["Content-Transfer-Encoding"] = "base64"
            part.set_payload(__import__("base64").encodebytes(text.encode(charset)).decode())
            message.attach(part)
        return message

    def parts(self, message: email.message.Message) -> "list[Tuple[bytes, str]]":
        found = []
        for part in message.walk():
            if not part.is_multipart():
                payload = part.get_payload(decode=True)
                assert isinstance(payload, bytes)
                found.append((payload, part.get_content_charset("us-ascii")))
        return found

    def test_twenty_parts(self) -> None:
        parsed = email.message_from_bytes(self.message().as_bytes(), policy=email.policy.default)
        parts = self.parts(parsed)
        self.assertEqual(len(parts), len(PARTS))
        for (data, charset), (_, text) in zip(parts, PARTS):
            self.assertEqual(part_text(self.client, data, charset), data.decode(charset), charset)
            self.assertEqual(part_text(self.client, data, charset), text, charset)

    def test_hostile_charsets(self) -> None:
        for charset in HOSTILE_CHARSETS:
            self.assertEqual(part_text(self.client, b"text \xe9", charset), "text \ufffd", charset[:40])

    def test_a_message_of_charsets_that_the_service_has_not(self) -> None:
        charsets = [*REFUSED_CHARSETS, "no-such-charset", "../../../etc/passwd", "utf-8//IGNORE", "x" * 900, "koi8-r"]
        boundary = "part"
        parts = [
            f'--{boundary}\r\nContent-Type: text/plain; charset="{charset}"\r\n'
            f"Content-Transfer-Encoding: 8bit\r\n\r\n".encode() + b"text \xc1\r\n"
            for charset in charsets
        ]
        head = f'MIME-Version: 1.0\r\nContent-Type: multipart/mixed; boundary="{boundary}"\r\n\r\n'.encode()
        message = email.message_from_bytes(head + b"".join(parts) + f"--{boundary}--\r\n".encode())
        found = [part_text(self.client, data, charset).strip() for data, charset in self.parts(message)]
        self.assertEqual(found, ["text \ufffd"] * (len(charsets) - 1) + ["text а"])

    def test_a_gateway_without_charmaps(self) -> None:
        """A name whose charmap is missing is a LookupError too."""
        with mock.patch.dict(os.environ, {"ICONVD_CHARMAPS": "/nowhere"}):
            self.assertEqual(part_text(self.client, b"text \xe9", "windows-1252"), "text \ufffd")

    def test_faulty_bytes(self) -> None:
        for charset, _ in PARTS:
            data = bytes(range(256)) * 4
            if charset in ("utf-7", "shift_jis", "gbk", "euc-kr"):
                self.assertIsInstance(part_text(self.client, data, charset), str)
            else:
                self.assertEqual(part_text(self.client, data, charset), data.decode(charset, "replace"), charset)

    def test_ten_megabytes_of_one_character(self) -> None:
        for byte, charset in ((b"A", "utf-8"), (b"\xc1", "koi8-r"), (b"\x00", "utf-16-le"), (b"+", "us-ascii")):
            data = byte * 10_000_000
            started = time.monotonic()
            self.assertEqual(part_text(self.client, data, charset), data.decode(charset), charset)
            self.assertIsNotNone(started)

    def test_a_megabyte_of_faults(self) -> None:
        for byte, charset in ((b"\xff", "utf-8"), (b"\x81", "windows-1253"), (b"\xff", "us-ascii"), (b"\x80", "utf-7"), (b"\xa0\xa0", "shift_jis")):
            data = byte * 200_000
            text = part_text(self.client, data, charset)
            self.assertEqual(set(text), {"\ufffd"}, charset)
            self.assertEqual(len(text), len(data), charset)


if __name__ == "__main__":
    unittest.main()
