"""Conversions of whole pieces of text, as generators over a session (see session.py)."""

from __future__ import annotations

from typing import List, NamedTuple, Sequence, Tuple

from . import frames, planes
from .errors import RequestRefused
from .frames import Reply, Request, Status
from .session import UTF_8, Descriptor, Pair, Session, Steps

#: Room for the bytes that close a shift.
_CLOSING = 8
#: The most bytes of a CONV of a long text. The first CONV is shorter, and the size doubles while there is no fault: after a fault
#: the rest of a CONV is sent again.
_LONG_CHUNK = 262_144


class Run(NamedTuple):
    """How far a conversion got, and why it stopped: OK, EILSEQ, EINVAL or ENOCHAR."""

    output: bytes
    used: int
    status: Status


def run(session: Session, pair: Pair, data: bytes, is_careful: bool = False) -> Steps[Run]:
    """Converts from the start of `data` up to a fault or the end; see `run_mapped`. Computed characters are converted here."""
    if session.is_computed(pair.source) and planes.may_be_in(data):
        return (yield from _read_computed(session, pair, data, is_careful))
    if session.is_computed(pair.target):
        return (yield from _write_computed(session, pair, data, is_careful))
    ran = yield from run_mapped(session, pair, data, is_careful)
    begins = ran.status == Status.EILSEQ and session.is_computed(pair.source) and planes.may_begin(data[ran.used : ran.used + 4])
    return ran._replace(status=Status.EINVAL) if begins else ran


def _read_computed(session: Session, pair: Pair, data: bytes, is_careful: bool) -> Steps[Run]:
    marked = planes.marked_codes(data)
    ran = yield from run_mapped(session, Pair(UTF_8, pair.source), marked.data, is_careful)
    text = planes.characters_put_back(ran.output, marked.meant)
    if ran.status == Status.EILSEQ and planes.may_begin(data[ran.used : ran.used + 4]):
        ran = ran._replace(status=Status.EINVAL)
    if pair.target == UTF_8:
        return ran._replace(output=text)
    if is_careful and ran.status != Status.OK:
        return ran._replace(output=b"")
    written = yield from run(session, Pair(pair.target, UTF_8), text)
    # Where it stopped is not known in the source: the caller begins again.
    return ran._replace(output=written.output) if written.status == Status.OK else Run(b"", 0, written.status)


def _write_computed(session: Session, pair: Pair, data: bytes, is_careful: bool) -> Steps[Run]:
    if pair.source != UTF_8:
        read = yield from run(session, Pair(UTF_8, pair.source), data, is_careful)
        written = yield from _write_computed(session, Pair(pair.target, UTF_8), read.output, False)
        return read._replace(output=written.output) if written.status == Status.OK else Run(b"", 0, written.status)
    marked = planes.marked_characters(data)
    ran = yield from run_mapped(session, pair, marked.data, is_careful)
    found = planes.codes_put_back(ran.output, marked.meant)
    return ran._replace(output=found.output, used=ran.used + found.longer)


def run_mapped(session: Session, pair: Pair, data: bytes, is_careful: bool = False) -> Steps[Run]:
    """Converts from the start of `data` up to a fault or the end. `is_careful` is for a call that ends at a fault: its first
    request is short if the last such call had a fault, since a program may go on after each fault by a call for all that is
    left."""
    descriptor = yield from session.descriptor(pair)
    pieces: List[bytes] = []
    at = 0
    status = Status.OK
    first = chunk = session.first_piece(pair) if is_careful else frames.CHUNK
    before = [_reset(descriptor, 0)] if descriptor.has_state else []
    while at < len(data):
        piece = data[at : at + chunk]
        replies = yield before + [_convert(descriptor, piece)]
        before = []
        done = frames.read_converted(_accepted("CONV", replies[-1]), len(piece))
        at += len(piece) - done.left
        pieces.append(done.output)
        status = done.status
        if descriptor.parts and session.needs_whole(pair, descriptor, status, data[at : at + 4]):
            descriptor = yield from session.descriptor(pair, is_whole=True)
            continue
        ended = at == len(data) or done.left == len(piece)
        if status in (Status.EILSEQ, Status.ENOCHAR) or (status == Status.EINVAL and (ended or at + done.left == len(data))):
            break
        if status == Status.E2BIG and done.left == len(piece):
            raise RequestRefused("CONV", status)
        if len(data) - at > chunk:
            chunk = min(2 * chunk, _LONG_CHUNK)
    if is_careful and (at < len(data) or first < frames.CHUNK):
        session.note_end(pair, at, at < len(data))
    if descriptor.has_state and pieces:
        (reply,) = yield [_reset(descriptor, _CLOSING)]
        pieces.append(_accepted("RESET", reply).body)
    output = session.settle(pair.target, b"".join(pieces))
    return Run(output, at, Status.OK if at == len(data) else status)


def run_at_once(session: Session, work: Sequence[Tuple[Pair, List[bytes]]]) -> Steps[List[bytes]]:
    """Converts the pieces of several texts that have no faults, all by one round trip. Returns the output of each text."""
    requests: List[Request] = []
    for pair, pieces in work:
        descriptor = yield from session.descriptor(pair, is_whole=True)
        requests += [_convert(descriptor, piece) for piece in pieces]
    replies = iter((yield requests) if requests else [])
    return [b"".join(_whole(next(replies), piece) for piece in pieces) for _, pieces in work]


def cut(codes: bytes, width: int) -> List[bytes]:
    """Cuts codes of some bytes each into pieces for a request."""
    size = frames.CHUNK // width * width
    return [codes[at : at + size] for at in range(0, len(codes), size)]


def cut_text(text: str) -> List[bytes]:
    """Cuts a text into pieces for a request, in UTF-8."""
    size = frames.CHUNK // 4
    return [text[at : at + size].encode("utf-8") for at in range(0, len(text), size)]


def _whole(reply: Reply, piece: bytes) -> bytes:
    """Returns the output for a piece without faults."""
    done = frames.read_converted(_accepted("CONV", reply), len(piece))
    if done.status != Status.OK or done.left:
        raise RequestRefused("CONV", done.status)
    return done.output


def _convert(descriptor: Descriptor, data: bytes) -> Request:
    return frames.convert_request(descriptor.caller, descriptor.number, frames.MAX_ROOM, data)


def _reset(descriptor: Descriptor, room: int) -> Request:
    return frames.reset_request(descriptor.caller, descriptor.number, room)


def _accepted(what: str, reply: Reply) -> Reply:
    if reply.status not in frames.STOPS:
        raise RequestRefused(what, reply.status)
    return reply
