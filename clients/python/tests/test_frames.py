"""Frames: cut anywhere, and lengths out of range."""

import struct
import unittest

import support  # noqa: F401

from iconvd import frames
from iconvd.errors import ServerLost


class Frames(unittest.TestCase):
    def test_request_of_the_manual(self) -> None:
        request = frames.open_request(7, b"UTF-8", b"ISO-8859-1", strict=False)
        self.assertEqual(
            request.frame(1).hex(), "0000001a" + "00000007" + "00000001" + "03" + "055554462d38" + "0a49534f2d383835392d31"
        )
        request = frames.convert_request(7, 0, 8, bytes.fromhex("41e942"))
        self.assertEqual(request.frame(2).hex(), "00000014" + "00000007" + "00000002" + "04" + "00000000" + "00000008" + "41e942")

    def test_replies_cut_at_each_byte(self) -> None:
        stream = bytes.fromhex("0000000d000000070000000100000000000000001500000007000000020000000000000000" + "0041c3a942")
        whole = list(frames.ReplyReader().feed(stream))
        for cut in range(len(stream) + 1):
            reader = frames.ReplyReader()
            replies = list(reader.feed(stream[:cut])) + list(reader.feed(stream[cut:]))
            self.assertEqual(replies, whole, cut)

    def test_replies_byte_by_byte(self) -> None:
        stream = b"".join(struct.pack(">IIIB", 9 + n, n, n, 0) + bytes(n) for n in range(30))
        reader = frames.ReplyReader()
        replies = [reply for byte in stream for reply in reader.feed(bytes((byte,)))]
        self.assertEqual([len(reply.body) for reply in replies], list(range(30)))
        self.assertTrue(reader.is_between_frames)

    def test_lengths_out_of_range(self) -> None:
        for length in (0, 8, 1_048_577, 0xFFFFFFFF):
            with self.assertRaises(ServerLost):
                list(frames.ReplyReader().feed(struct.pack(">I", length)))

    def test_replies_that_are_too_short(self) -> None:
        with self.assertRaises(ServerLost):
            frames.read_converted(frames.Reply(1, 1, 0, b"\0\0\0"), 5)
        with self.assertRaises(ServerLost):
            frames.read_converted(frames.Reply(1, 1, 0, bytes((0, 0, 0, 9)) + bytes(4)), 5)

    def test_names_above_255_bytes(self) -> None:
        with self.assertRaises(ValueError):
            frames.open_request(1, b"a" * 256, b"UTF-8")


if __name__ == "__main__":
    unittest.main()
