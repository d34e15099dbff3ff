"""The policy of iconvd.email: messages of many charsets, hostile ones, and what decoding costs."""

from __future__ import annotations

import base64
import codecs
import contextlib
import copy
import email
import email.policy
import io
import os
import re
import textwrap
import time
import unittest
from typing import List, Optional
from unittest import mock

import mailbox
from meter import metered
from support import HERE, SERVER, ClientTest

import iconvd
import iconvd.email

HEAD = b"From: a@example.org\nMIME-Version: 1.0\n"
DEEP = b"".join(b"Content-Type: multipart/mixed; boundary=b%d\n\n--b%d\n" % (n, n) for n in range(1500))
#: Messages that Python's own policy raises an exception at, or may.
HOSTILE = [
    DEEP + b"Content-Type: text/plain; charset=koi8-r\n\n\xc1",
    HEAD + b"Content-Type: message/rfc822\n\n" * 1500 + b"\xc1",
    b"To: " + b"(" * 3000 + b"\nSubject: " + b"(" * 3000 + b"\nContent-Type: " + b"(" * 3000 + b"\n\ntext",
    b"To: <\nCc: :;<@\nFrom: =?\nReply-To: \"\nSender: ,,;\nBcc: \\\nMessage-ID: <@\nDate: Mon, 99 Foo 99999 99:99:99 +9999\n\n",
    HEAD + b"Content-Type: text/plain; charset*=undefined''koi8-r\n\n\xc1",
    HEAD + b"Content-Type: text/plain; charset*0*=utf-8''koi8; charset*1*=-r\n\n\xc1",
    HEAD + b'Content-Type: text/plain; charset="utf-8\0"\n\n\xc1',
    HEAD + b"Content-Type: text/plain; charset=\n\n\xc1",
    HEAD + b"Content-Type: text/plain; charset\n\n\xc1",
    HEAD + "Content-Type: text/plain; charset*²=x; name*9999999999=y; name*'=z; *=; =; *0*=a''b\n\n\xc1".encode("latin-1"),
    HEAD + b"Content-Type: multipart/mixed\n\n--x\n\xc1",
    HEAD + b"Content-Type: multipart/mixed; boundary*=idna''x\n\n--x\n\n\xc1\n--x--",
    HEAD + b"Content-Type: multipart/mixed; name=\"a\\\\\"; boundary=\"b\\\"; boundary*=undefined''x\"\n\n--x\n\n\xc1\n--x--",
    HEAD + b"Content-Type: text/plain\nContent-Transfer-Encoding: x-uuencode\n\nbegin 644 a\n\xff\xff\xff~~~\nend\n",
    HEAD + b"Content-Type: text/plain\nContent-Transfer-Encoding: base64\n\n=\xff=A===\n",
    HEAD + b"Content-Type: message/partial\n\nSubject: " + b"=?undefined?q?a?= " * 30 + b"\n\n\xc1",
    HEAD + b"Content-Type: message/external-body\n\n\xc1",
    HEAD + b"Content-Type: message/delivery-status\n\n\n\n\n\xc1",
    HEAD + b"Content-Type: x/y\n\n\xc1",
    HEAD + b"Content-Type: /\nContent-Disposition: ;\n\n\xc1",
    HEAD + b"Content-Disposition: attachment; filename*=undefined''%C1; filename*0*=idna''%C1\n\n\xc1",
    b"Subject: =?undefined?q?a?= =?idna?b?wQ==?= =?unicode_escape?q?=5Cud800?= =?\0?q?a?= =?utf-7?q?+2AA-?= =?x y?q?a?=\n\n\xc1",
    b"Subject: " + b"\xff" * 1000 + b"=?koi8-r?q?" + b"\xff" * 10 + b"?=\n\n",
    b": \n:\n\n",
    b"",
]
ADDRESSES = ("to", "cc", "from", "bcc", "sender", "reply-to")
HEADERS = (*ADDRESSES, "subject", "date", "message-id", "content-type", "content-disposition", "content-transfer-encoding", "x-other")


def parsed(data: bytes, policy: Optional[email.policy.EmailPolicy] = None) -> iconvd.email.MailMessage:
    message = email.message_from_bytes(data, policy=policy or iconvd.email.policy)
    assert isinstance(message, iconvd.email.MailMessage)
    return message


def read_all(message: iconvd.email.MailMessage) -> List[object]:
    """All that a program may ask a message for."""
    found: List[object] = [message.get_charsets(), message.get_body()]
    for part in message.walk():
        for name in HEADERS:
            for header in part.get_all(name, []):
                found += [str(header), header.defects, header.name, getattr(header, "addresses", ()), getattr(header, "params", {})]
        found += [part.get_filename(), part.get_content_charset(), part.get_boundary(), part.is_attachment()]
        found += [part.get_content_type(), part.get_content_disposition(), part.items(), part.get_params()]
        if not part.is_multipart() or part.get_content_maintype() == "message":
            found.append(part.get_content())
    return found


class Page(ClientTest):
    def test_the_example(self) -> None:
        """The example of docs/CLIENTS.md prints what the message says."""
        with open(os.path.join(HERE, "..", "..", "..", "docs", "CLIENTS.md"), encoding="utf-8") as page:
            block = page.read().split("    import email, iconvd.email\n", 1)[1].split("\n\n`iconvd.email.ServicePolicy")[0]
        data = b"From: =?koi8-r?q?=E9=F7=E1=EE?= <i@example.org>\nSubject: =?iso-8859-1?q?caf=E9?=\nContent-Type: text/plain; charset=koi8-r\n"
        data += b"Content-Disposition: attachment; filename*=gbk''%d6%d0.txt\n\n\xc1"
        printed = io.StringIO()
        with contextlib.redirect_stdout(printed):
            exec(textwrap.dedent("    import email, iconvd.email\n" + block), {"data": data})
        self.assertEqual(printed.getvalue().splitlines(), ["café ИВАН", "中.txt а"])


class Mailbox(unittest.TestCase):
    def test_as_python_or_by_the_documented_replacement(self) -> None:
        """What a whole message says is what Python reads, unless the service lacks a charset. No message raises an exception."""
        box = mailbox.mailbox(300)
        kinds = mailbox.compare(box)
        bad = {kind: number for kind, number in kinds.items() if not re.fullmatch(mailbox.DOCUMENTED, kind)}
        self.assertEqual(bad, {}, kinds)
        self.assertGreater(kinds["same"], 0.85 * sum(kinds.values()), kinds)
        self.assertGreaterEqual(len(mailbox.CHARSETS), 60)

    def test_time(self) -> None:
        best = mailbox.times(mailbox.mailbox(120), 3)
        self.assertLess(best.service, 3 * best.python, best)


class Hostile(ClientTest):
    def test_no_exception(self) -> None:
        for data in HOSTILE:
            with self.subTest(data=data[:80]):
                self.assertIsInstance(read_all(parsed(data)), list)

    def test_no_exception_for_text(self) -> None:
        """A message that is parsed from text may have characters and raw bytes in one body."""
        for data in HOSTILE[2:]:
            for more in ("é\u20ac", "\ud800", "\udcc3", "\u20ac\udcc3", "\ud800\udcc3"):
                with self.subTest(data=data[:80], more=ascii(more)):
                    message = email.message_from_string(data.decode("latin-1") + more, policy=iconvd.email.policy)
                    assert isinstance(message, iconvd.email.MailMessage)
                    self.assertIsInstance(read_all(message), list)
        mixed = email.message_from_string("Content-Type: text/plain; charset=utf-8\n\n\u20ac\udcc3\udca9", policy=iconvd.email.policy)
        self.assertEqual(mixed.get_content(), "\u20acé")

    def test_no_name_of_a_charset_gets_to_python(self) -> None:
        asked: List[str] = []

        def search(name: str) -> None:
            asked.append(name)

        codecs.register(search)
        self.addCleanup(getattr(codecs, "unregister", lambda _: None), search)
        number = iter(range(100))
        name = lambda: b"hostile%d" % next(number)  # noqa: E731
        data = b"Subject: =?%s?q?=E9?= =?%s*en?B?6Q==?= x=?%s?q?=E9?=y\n" % (name(), name(), name())
        data += b'To: =?%s?q?=E9?= <a@b.c>, "=?%s?q?=E9?=" <a@b.c> (=?%s?q?=E9?=)\n' % (name(), name(), name())
        data += b"Content-Disposition: attachment; filename*=%s''%%E9; x*0*=%s''%%E9; x*1*=%%E9; y=\"a;z*=%s''b\"; (w*=%s''c\"\n" % (
            name(), name(), name(), name())  # fmt: skip
        data += b"Content-Type: text/plain (q*=%s''v; r*=%s''v); charset=%s; name*=\"%s''%%E9\"\n\n\xe9" % (name(), name(), name(), name())
        found = read_all(parsed(data))
        self.assertIn("\ufffd", found)
        self.assertEqual([each for each in asked if each.startswith("hostile")], [])

    def test_deep_parts_are_not_taken_apart(self) -> None:
        parts = list(parsed(DEEP + b"\nend").walk())
        self.assertEqual(len(parts), iconvd.email.MAX_DEPTH + 1)
        self.assertEqual(parts[-1].get_content_type(), "application/octet-stream")
        self.assertTrue(parts[-1].get_content().endswith(b"\nend"))

    def test_a_lost_server_is_told(self) -> None:
        message = parsed(b"Subject: =?koi8-r?q?=C1?=\n\ntext", iconvd.email.ServicePolicy(iconvd.Client("unix:/nowhere/socket", timeout=1)))
        for read in (lambda: message["subject"], message.get_content):
            with self.assertRaises(iconvd.ServerLost):
                read()


class Texts(ClientTest):
    def setUp(self) -> None:
        super().setUp()
        self.policy = iconvd.email.ServicePolicy(self.client)

    def test_replacement(self) -> None:
        message = parsed(b"Subject: =?koi8-r?q?=C1?= =?nope?q?=E9?=\nContent-Type: text/plain; charset=nope\n\nt\xe9", self.policy)
        self.assertEqual(str(message["subject"]), "а\ufffd")
        self.assertEqual(message.get_content(), "t\ufffd")
        with self.assertRaises(UnicodeDecodeError):
            message.get_content(errors="strict")
        self.assertEqual(message.get_content(errors="ignore"), "t")

    def test_charmaps_that_are_missing(self) -> None:
        with mock.patch.dict(os.environ, {"ICONVD_CHARMAPS": "/nowhere"}):
            for charset in (b"koi8-r", b"iso-2022-jp", b"utf-16"):
                data = b"Subject: =?%s?q?=C1?= =?%s?q?=C1?=\nContent-Type: text/plain; charset=%s\n\nab\xc1" % (charset, charset, charset)
                message = parsed(data, self.policy)
                self.assertEqual(set(str(message["subject"])), {"\ufffd"}, charset)
                self.assertEqual(message.get_content()[-1], "\ufffd", charset)

    def test_characters_that_words_cut(self) -> None:
        """Many mailers cut a text at a number of bytes."""
        for charset, text in (("utf-8", "日本語"), ("gbk", "中文"), ("koi8-r", "да")):
            data = text.encode(charset)
            words = b" ".join(b"=?%s?q?=%02X?=" % (charset.encode(), byte) for byte in data)
            self.assertEqual(str(parsed(b"Subject: " + words + b"\n\n", self.policy)["subject"]), text, charset)
            sections = b"; ".join(b"filename*%d*=%s%%%02X" % (n, b"" if n else charset.encode() + b"''", byte) for n, byte in enumerate(data))
            message = parsed(b"Content-Disposition: attachment; " + sections + b"\n\n", self.policy)
            self.assertEqual(message.get_filename(), text, charset)

    def test_marks_of_words(self) -> None:
        for charset in ("utf-16", "utf-32", "utf-8-sig"):
            word = b"=?%s?q?%s?=" % (charset.encode(), b"".join(b"=%02X" % byte for byte in "é".encode(charset)))
            self.assertEqual(str(parsed(b"Subject: " + word + b" " + word + b"\n\n", self.policy)["subject"]), "éé", charset)

    def test_words_with_shifts(self) -> None:
        """Many words share the state of a descriptor of UTF-7."""
        texts = ["é", "ab", "日本", "+", "é" * 40, "x"] * 20
        coded = [text.encode("utf-7") for text in texts]
        coded[7], coded[9] = b"+AO", b"\xff+AOk"
        words = b" - ".join(b"=?utf-7?q?%s?=" % b"".join(b"=%02X" % byte for byte in word) for word in coded)
        found = str(parsed(b"Subject: " + words + b"\n\n", self.policy)["subject"]).split(" - ")
        self.assertEqual(found[:7] + found[8:9] + found[10:], texts[:7] + texts[8:9] + texts[10:])
        self.assertEqual((found[7], found[9]), ("\ufffd", "\ufffdé"))
        long = base64.b64encode(("é" * 50_000).encode("utf-7"))
        message = parsed(b"Subject: =?utf-7?b?%s?= - =?utf-7?q?+AOk-?= - =?utf-7?b?%s?=\n\n" % (long, long), self.policy)
        self.assertEqual(str(message["subject"]), "é" * 50_000 + " - é - " + "é" * 50_000)

    def test_charmaps_of_the_program(self) -> None:
        self.client.upload("<code_set_name> MAIL\n<escape_char> /\nCHARMAP\n<U0416> /x41\n<U003F> /x3f\nEND CHARMAP\n")
        message = parsed(b"Subject: =?mail?q?A?=\nContent-Type: text/plain; charset=MAIL\n\nA?", self.policy)
        self.assertEqual([str(message["subject"]), message.get_content()], ["Ж", "Ж?"])

    def test_writing(self) -> None:
        """Content is set, and messages are written, as under Python's own policy."""
        data = b"Subject: =?utf-8?b?w6k=?=\nContent-Disposition: attachment; filename*=utf-8''%C3%A9\n\ntext\n"
        self.assertEqual(parsed(data, self.policy).as_bytes(), data)
        ours, theirs = (email.message.EmailMessage(policy=policy) for policy in (self.policy, email.policy.default))
        for message in (ours, theirs):
            message["Subject"], message["To"] = "é" * 100, "é <a@example.org>"
            message.set_content("naïve\n", charset="iso-8859-1")
            message.add_attachment(b"x", maintype="a", subtype="b", filename="é")
        self.assertEqual(re.sub(b"=+[0-9]+==", b"", ours.as_bytes()), re.sub(b"=+[0-9]+==", b"", theirs.as_bytes()))
        self.assertEqual(self.policy.clone(linesep="\r\n").linesep, "\r\n")
        # Python copies a message with its policy for this.
        data = b"Content-Type: text/plain; charset=koi8-r\nContent-Transfer-Encoding: 8bit\n\n\xc1\n"
        seven = [parsed(data, self.policy).as_bytes(policy=self.policy.clone(cte_type="7bit"))]
        seven.append(email.message_from_bytes(data, policy=email.policy.default).as_bytes(policy=email.policy.default.clone(cte_type="7bit")))
        self.assertEqual(*seven)
        self.assertEqual(copy.deepcopy(parsed(data, self.policy)).get_content(), "а\n")

    def test_cost(self) -> None:
        """Headers of many words and parameters, and a body of faults, cost few round trips."""
        with metered() as meter, iconvd.Client(SERVER, timeout=30) as client:
            policy = iconvd.email.ServicePolicy(client)
            charsets = [b"koi8-r", b"cp1251", b"utf-7", b"no-such-charset"]
            words = b" ".join(b"=?%s?q?=C1=%02X%d+AOk?=" % (charsets[n % 4], 128 + n % 128, n) for n in range(1500))
            values = b"; ".join(b"a%d*=koi8-r''%%C1%d" % (n, n) for n in range(1500))
            for data, name in ((b"Subject: " + words, "subject"), (b"Content-Type: text/plain; " + values, "content-type")):
                message = parsed(data + b"\n\ntext", policy)
                for charset in ("koi8-r", "cp1251", "utf-7", "us-ascii"):
                    client.decode(b"a", charset)
                meter.reset()
                began = time.monotonic()
                message[name]
                self.assertEqual(meter.excess(len(data)), [], name)
                self.assertLess(time.monotonic() - began, 30)
            message = parsed(b"Subject: =?koi8-r?q?=C1?=\nContent-Disposition: attachment; filename*=koi8-r''%C2\n\n", policy)
            self.assertEqual((message["subject"], message.get_filename()), ("а", "б"))
            meter.reset()
            self.assertEqual((message["subject"], message.get_filename(), meter.trips), ("а", "б", 0))
            message = parsed(b"Content-Type: text/plain; charset=koi8-r\n\n" + b"\xc1\xff" * 50_000, policy)
            meter.reset()
            self.assertEqual(message.get_content(), "аЪ" * 50_000)
            self.assertEqual(meter.excess(100_000), [])


if __name__ == "__main__":
    unittest.main()
