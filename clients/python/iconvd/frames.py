"""Request and reply frames, as bytes (see iconvd-protocol(5)). Nothing here reads or writes a stream."""

from __future__ import annotations

import struct
from enum import IntEnum
from typing import Iterator, NamedTuple, Optional, Tuple

from .errors import ServerLost

#: The length field counts the bytes after it.
MIN_LENGTH = 9
MAX_LENGTH = 1_048_576
#: The most bytes of a body.
MAX_BODY = MAX_LENGTH - MIN_LENGTH
#: The most bytes of the input of one CONV.
MAX_INPUT = MAX_BODY - 8
#: The most bytes of output of one CONV.
MAX_ROOM = 1_000_000
#: An input of this size makes a CONV of 65,536 bytes, which the server takes in one read.
CHUNK = 65_515
#: Limits of one caller.
MAX_DESCRIPTORS = 16
MAX_CHARMAPS = 8
MAX_MAPPINGS = 262_144

_HEAD = struct.Struct(">IIIB")
_NUMBER = struct.Struct(">I")
_TWO = struct.Struct(">II")


class Op(IntEnum):
    """The op of a request."""

    PUT = 1
    DROP = 2
    OPEN = 3
    CONV = 4
    RESET = 5
    CLOSE = 6
    BYE = 7
    PART = 8


class Status(IntEnum):
    """The status of a reply."""

    OK = 0
    E2BIG = 1
    EILSEQ = 2
    EINVAL = 3
    EBADF = 4
    EMFILE = 5
    ENOMEM = 6
    UNSUPPORTED = 7
    BADREQ = 8
    BADMAP = 9
    EXISTS = 10
    NONAME = 11
    BUSY = 12
    QUOTA = 13
    ROOM = 14
    ENOCHAR = 15


#: The statuses of a CONV that has converted what it could.
STOPS = frozenset((Status.OK, Status.E2BIG, Status.EILSEQ, Status.EINVAL, Status.ENOCHAR))

#: The causes of a refused charmap, by number.
CAUSES = (
    "",
    "Declaration",
    "Syntax",
    "UnknownName",
    "NotScalar",
    "Range",
    "Constant",
    "Length",
    "Carry",
    "Clash",
    "Prefix",
    "TooMany",
    "NoMap",
    "NoEnd",
    "NoName",
    "NoSubstitute",
)


class Request(NamedTuple):
    """A request of a caller."""

    caller: int
    op: Op
    body: bytes = b""

    def frame(self, tag: int) -> bytes:
        """Returns the request's frame."""
        return _HEAD.pack(MIN_LENGTH + len(self.body), self.caller, tag, self.op) + self.body


class Reply(NamedTuple):
    """A reply to a caller."""

    caller: int
    tag: int
    status: int
    body: bytes

    def number(self, at: int = 0) -> int:
        """Returns the four bytes at `at` of the body as a number."""
        if len(self.body) < at + 4:
            raise ServerLost("the server sent a reply that is too short")
        (number,) = _NUMBER.unpack_from(self.body, at)
        return int(number)


class Converted(NamedTuple):
    """The result of a CONV."""

    status: Status
    #: How many bytes of the input were not used.
    left: int
    output: bytes


class ReplyReader:
    """Cuts the bytes of a stream into replies, in any pieces in which they arrive."""

    def __init__(self) -> None:
        self._held = bytearray()

    def feed(self, data: bytes) -> Iterator[Reply]:
        """Takes bytes, and yields the replies that they complete. Raises ServerLost for a length out of range."""
        held = self._held
        held += data
        at = 0
        try:
            while len(held) - at >= 4:
                (length,) = _NUMBER.unpack_from(held, at)
                if not MIN_LENGTH <= length <= MAX_LENGTH:
                    raise ServerLost(f"the server sent a frame of {length} bytes")
                end = at + 4 + length
                if len(held) < end:
                    break
                _, caller, tag, status = _HEAD.unpack_from(held, at)
                body = bytes(held[at + 13 : end])
                at = end
                yield Reply(caller, tag, status, body)
        finally:
            del held[:at]

    @property
    def is_between_frames(self) -> bool:
        """Whether no part of a reply is held."""
        return not self._held


def open_request(caller: int, target: bytes, source: bytes, strict: bool = True) -> Request:
    """Opens a descriptor. Raises ValueError for a name of more than 255 bytes."""
    if len(target) > 255 or len(source) > 255:
        raise ValueError("a name has at most 255 bytes")
    body = bytes((len(target),)) + target + bytes((len(source),)) + source
    return Request(caller, Op.OPEN, body + b"\x01" if strict else body)


def convert_request(caller: int, descriptor: int, room: int, data: bytes) -> Request:
    """Converts `data`, of at most MAX_INPUT bytes, into at most `room` bytes."""
    return Request(caller, Op.CONV, _TWO.pack(descriptor, room) + data)


def reset_request(caller: int, descriptor: int, room: int) -> Request:
    """Resets a descriptor to its start."""
    return Request(caller, Op.RESET, _TWO.pack(descriptor, room))


def close_request(caller: int, descriptor: int) -> Request:
    """Frees a descriptor."""
    return Request(caller, Op.CLOSE, _NUMBER.pack(descriptor))


def read_converted(reply: Reply, sent: int) -> Converted:
    """Reads the reply to a CONV of `sent` bytes. Raises ServerLost if it is not one."""
    left = reply.number()
    if reply.status not in STOPS or left > sent or len(reply.body) < 8:
        raise ServerLost(f"the server sent a wrong reply to CONV: status {reply.status}")
    return Converted(Status(reply.status), left, reply.body[8:])


def read_bad_map(reply: Reply) -> Tuple[int, str]:
    """Reads the line and the cause of a BADMAP."""
    line = reply.number()
    cause: Optional[int] = reply.body[4] if len(reply.body) > 4 else None
    known = cause is not None and 0 < cause < len(CAUSES)
    return line, CAUSES[cause] if known and cause is not None else f"cause {cause}"
