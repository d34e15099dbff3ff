"""What a stream asks, and the right replies: recorded once from an undisturbed server, and checked there by Python's codecs."""

from __future__ import annotations

import random
import socket
import struct
from typing import Dict, Generator, List, NamedTuple, Tuple

from iconvd import frames
from iconvd.frames import Op, Reply, ReplyReader, Request, Status

CALLERS = (1, 2, 3)
LETTERS = 64
_FIRST = 0x410


class Exchange(NamedTuple):
    """A request frame and its reply."""

    request: bytes
    reply: Reply


#: Yields requests and is sent their replies.
Asking = Generator[Request, Reply, None]


class _Charmap:
    """A charmap of 64 letters and `?`. Every stream and every caller has a different one of the same name."""

    def __init__(self, seed: int) -> None:
        self._letters = [chr(_FIRST + (7 * place + 3 * seed) % LETTERS) for place in range(LETTERS)]

    def text(self) -> bytes:
        mappings = "".join(f"<U{ord(letter):04X}> \\x{0x80 + place:02X}\n" for place, letter in enumerate(self._letters))
        return f"<code_set_name> TOY\nCHARMAP\n<question-mark> \\x3F\n{mappings}END CHARMAP\n".encode()

    def encode(self, text: str) -> bytes:
        return bytes(0x80 + self._letters.index(letter) for letter in text)


def _upload(caller: int, charmap: _Charmap, dice: random.Random) -> Asking:
    text = charmap.text()
    cut = dice.randrange(len(text))
    for request in (Request(caller, Op.PART), Request(caller, Op.PART, text[:cut]), Request(caller, Op.PUT, text[cut:])):
        reply = yield request
        assert reply.status == Status.OK, reply


def _convert(caller: int, descriptor: int, data: bytes, dice: random.Random) -> Generator[Request, Reply, bytes]:
    """Converts in small pieces with little room, cut within characters: what is left is sent again with what follows."""
    output, at = b"", 0
    while at < len(data):
        piece = data[at : at + dice.randint(4, 11)]
        reply = yield frames.convert_request(caller, descriptor, dice.randint(6, 16), piece)
        assert reply.status in (Status.OK, Status.E2BIG, Status.EINVAL), reply
        converted = frames.read_converted(reply, len(piece))
        output += converted.output
        at += len(piece) - converted.left
    return output


def _talk(caller: int, seed: int) -> Asking:
    """All that one caller asks."""
    dice = random.Random(1000 * seed + caller)
    charmap = _Charmap(10 * seed + caller)
    text = "".join(chr(_FIRST + dice.randrange(LETTERS)) for _ in range(40))
    mixed = "".join(dice.choice("abc +-~\u00e9\u0416\u3042\U0001f600") for _ in range(30))
    yield from _upload(caller, charmap, dice)
    for number, (target, source) in enumerate([(b"UTF-8", b"TOY"), (b"TOY", b"UTF-8"), (b"UTF-7", b"UTF-8"), (b"UTF-16", b"UTF-8")]):
        reply = yield frames.open_request(caller, target, source)
        assert reply.number() == number
    assert (yield from _convert(caller, 0, charmap.encode(text), dice)) == text.encode()
    assert (yield from _convert(caller, 1, text.encode(), dice)) == charmap.encode(text)
    sevens = yield from _convert(caller, 2, mixed.encode(), dice)
    reply = yield frames.reset_request(caller, 2, 8)
    assert (sevens + reply.body).decode("utf-7") == mixed
    assert (yield from _convert(caller, 3, mixed.encode(), dice)) == b"\xfe\xff" + mixed.encode("utf-16-be")
    yield Request(caller, Op.BYE)


class _Recorder:
    """A stream to an undisturbed server."""

    def __init__(self, address: Tuple[str, int]) -> None:
        self._socket = socket.create_connection(address)
        self._reader = ReplyReader()
        self.exchanges: List[Exchange] = []

    def ask(self, request: Request) -> Reply:
        frame = request.frame(len(self.exchanges))
        self._socket.sendall(frame)
        replies: List[Reply] = []
        while not replies:
            replies = list(self._reader.feed(self._socket.recv(65536)))
        self.exchanges.append(Exchange(frame, replies[0]))
        return replies[0]

    def close(self) -> None:
        self._socket.close()


def record(address: Tuple[str, int], seed: int) -> List[Exchange]:
    """Asks a server what the callers of one stream ask, a request of each in turn, and returns the exchanges."""
    recorder = _Recorder(address)
    talks: Dict[int, Asking] = {caller: _talk(caller, seed) for caller in CALLERS}
    waiting = {caller: next(talk) for caller, talk in talks.items()}
    while waiting:
        for caller, request in list(waiting.items()):
            reply = recorder.ask(request)
            try:
                waiting[caller] = talks[caller].send(reply)
            except StopIteration:
                del waiting[caller]
    recorder.close()
    return recorder.exchanges


#: A BYE of a caller that nobody uses, and its reply.
PING = struct.pack(">IIIB", 9, 0xFFFFFFFF, 0, Op.BYE)
PONG = struct.pack(">IIIB", 9, 0xFFFFFFFF, 0, Status.OK)
