"""What the server of one stream holds for this client: callers with their descriptors and charmaps.

The methods are generators that read and write nothing. Each yields a list of requests and is sent the list of their replies,
so that a blocking client and an asyncio client share them.
"""

from __future__ import annotations

from typing import Dict, Generator, Iterable, List, NamedTuple, Optional, Set, Tuple, TypeVar

from . import frames
from .charmaps import Charmap
from .errors import CharmapRefused, RequestRefused, UnknownEncoding
from .frames import Op, Reply, Request, Status
from .library import Library
from .names import Encoding

T = TypeVar("T")
#: The least bytes of the first request after a fault.
_SHORT = 256
#: The end of the keys of beginnings. No charmap's name has it.
_BEGINNING = "\n"
#: The end of the keys of charmaps for writing.
_WRITTEN = "\t"
#: A caller number that no session uses.
NO_CALLER = 0xFFFFFFFF
UTF_7 = Encoding(False, "UTF-7")
UTF_8 = Encoding(False, "UTF-8")
#: Yields requests, is sent their replies, and returns a T.
Steps = Generator[List[Request], List[Reply], T]


class Pair(NamedTuple):
    """The target and the source of a conversion."""

    target: Encoding
    source: Encoding


class Descriptor(NamedTuple):
    """A descriptor of a caller. Only one of UTF-7 has a state; any number of conversions may share another."""

    caller: int
    number: int
    has_state: bool
    #: The encodings of which only the beginning of the charmap is uploaded.
    parts: Tuple[Encoding, ...] = ()


class _Caller:
    """A caller number and what it has."""

    def __init__(self, number: int) -> None:
        self.number = number
        self.descriptors = 0
        #: How many mappings each has, by its key.
        self.charmaps: Dict[str, int] = {}

    def has_place(self, wanted: Dict[str, Charmap]) -> bool:
        """Whether one more descriptor and these charmaps fit."""
        new = [charmap for key, charmap in wanted.items() if key not in self.charmaps]
        return (
            self.descriptors < frames.MAX_DESCRIPTORS
            and len(self.charmaps) + len(new) <= frames.MAX_CHARMAPS
            and sum(self.charmaps.values()) + sum(charmap.mappings for charmap in new) <= frames.MAX_MAPPINGS
        )

    def fill(self) -> None:
        """Notes that the server takes no more for this caller."""
        self.descriptors = frames.MAX_DESCRIPTORS

    def forget(self, keys: Iterable[str]) -> None:
        """Notes that the caller lacks these charmaps."""
        for key in keys:
            self.charmaps.pop(key, None)


class Session:
    """The callers, descriptors and charmaps of one stream. Callers are numbered from 1."""

    def __init__(self, library: Library) -> None:
        self._library = library
        self._callers: List[_Caller] = []
        self._descriptors: Dict[Pair, Descriptor] = {}
        self._opening: Set[Pair] = set()
        self._first_pieces: Dict[Pair, int] = {}

    def descriptor(self, pair: Pair, is_whole: bool = False) -> Steps[Descriptor]:
        """Returns the descriptor of a pair. The first call uploads the charmaps and opens it. Of a long charmap only the
        beginning is uploaded, unless `is_whole` is true. UTF-7 has a state, which can't be moved to another descriptor."""
        found = self._descriptors.get(pair)
        while pair in self._opening and (found is None or (is_whole and found.parts)):
            # Another task opens it. Replies arrive in order.
            yield [Request(NO_CALLER, Op.BYE)]
            found = self._descriptors.get(pair)
        if found is None or (is_whole and found.parts):
            self._opening.add(pair)
            try:
                found = yield from self._open(pair, is_whole or UTF_7 in pair)
            finally:
                self._opening.discard(pair)
            self._descriptors[pair] = found
        return found

    def needs_whole(self, pair: Pair, descriptor: Descriptor, status: Status, data: bytes) -> bool:
        """Whether a descriptor stopped at something that the rest of a charmap may have. `data` is the next bytes of the text."""
        if status == Status.EILSEQ and pair.source in descriptor.parts:
            return self._library.may_have_in_rest(pair.source, data)
        if status != Status.ENOCHAR or pair.target not in descriptor.parts:
            return False
        # It is empty if a server stopped within a character.
        character = data.decode("utf-8", "ignore")[:1] if pair.source == UTF_8 else ""
        return not character or self._library.may_have_in_rest(pair.target, character)

    def settle(self, target: Encoding, output: bytes) -> bytes:
        """Returns what a conversion to an encoding means, from what the server wrote."""
        return self._library.settle(target, output)

    def is_computed(self, encoding: Encoding) -> bool:
        """Whether the client computes the characters of an encoding above U+FFFF."""
        return self._library.is_computed(encoding)

    def first_piece(self, pair: Pair) -> int:
        """Returns how many bytes the first request of a call may have."""
        return self._first_pieces.get(pair, frames.CHUNK) if self._first_pieces else frames.CHUNK

    def note_end(self, pair: Pair, used: int, is_fault: bool) -> None:
        """Notes how far a call got. After a fault the next one begins with a short piece; pieces grow while there is no fault."""
        first = self.first_piece(pair)
        if is_fault or used >= first:
            first = max(_SHORT, 2 * used)
        if first < frames.CHUNK:
            self._first_pieces[pair] = first
        else:
            self._first_pieces.pop(pair, None)

    def _open(self, pair: Pair, is_whole: bool) -> Steps[Descriptor]:
        status = Status.QUOTA
        for _ in range(3):
            used = [self._charmap(pair, end, is_whole) for end in pair]
            wanted = dict(key_and_map for key_and_map in used if key_and_map)
            caller = self._caller_for(wanted)
            if not (yield from self._upload_all(caller, wanted)):
                caller.fill()
                continue
            target, source = (found[1].name if found else _server_name(end) for found, end in zip(used, pair))
            (reply,) = yield [frames.open_request(caller.number, target, source)]
            if reply.status == Status.OK:
                caller.descriptors += 1
                parts = tuple(end for found, end in zip(used, pair) if found and found[0].endswith(_BEGINNING))
                return Descriptor(caller.number, reply.number(), UTF_7 in pair, parts)
            if reply.status != Status.EMFILE and not (reply.status == Status.UNSUPPORTED and wanted):
                raise RequestRefused("OPEN", reply.status)
            if reply.status == Status.UNSUPPORTED:
                # An upload that another task had begun was refused.
                status = Status.UNSUPPORTED
                caller.forget(wanted)
            caller.fill()
        raise RequestRefused("OPEN", status)

    def _charmap(self, pair: Pair, end: Encoding, is_whole: bool) -> Optional[Tuple[str, Charmap]]:
        """Returns the key and the charmap to upload for an end of a pair: the beginning of a long file, or all of it."""
        if not end.is_charmap:
            return None
        is_there = any(end.name in caller.charmaps for caller in self._callers)
        beginning = None if is_whole or is_there else self._library.beginning(end.name)
        if beginning is not None:
            return end.name + _BEGINNING, beginning.charmap
        read = self._library.get(end.name)
        written = self._library.written(end.name)
        return (end.name + _WRITTEN, written) if end is pair.target and written is not read else (end.name, read)

    def _caller_for(self, wanted: Dict[str, Charmap]) -> _Caller:
        """Returns the caller that has most of these charmaps and room for the rest, or a new one."""
        able = [caller for caller in self._callers if caller.has_place(wanted)]
        if able:
            return max(able, key=lambda caller: len(wanted.keys() & caller.charmaps.keys()))
        caller = _Caller(len(self._callers) + 1)
        self._callers.append(caller)
        return caller

    def _upload_all(self, caller: _Caller, wanted: Dict[str, Charmap]) -> Steps[bool]:
        """Uploads the charmaps that the caller lacks. Returns False if its quota is used up, or a beginning is refused."""
        for key, charmap in wanted.items():
            if key in caller.charmaps:
                continue
            is_first = not caller.charmaps and not caller.descriptors
            # Noted before the reply, so that no other task uploads it too: its requests are sent after this one.
            caller.charmaps[key] = charmap.mappings
            reply = yield from self._upload(caller.number, charmap)
            caller.charmaps[key] = reply.number() if reply.status == Status.OK else 0
            if reply.status in (Status.OK, Status.EXISTS):
                continue
            caller.forget([key])
            if reply.status == Status.QUOTA and not is_first:
                return False
            if reply.status != Status.BADMAP:
                raise RequestRefused("PUT", reply.status)
            if key.endswith(_BEGINNING):
                self._library.refuse_beginning(key[: -len(_BEGINNING)])
                return False
            line, cause = frames.read_bad_map(reply)
            name = key.rstrip(_WRITTEN)
            refused = CharmapRefused(name, cause, line)
            self._library.refuse(refused, name)
            raise refused
        return True

    @staticmethod
    def _upload(caller: int, charmap: Charmap) -> Steps[Reply]:
        """Uploads a charmap: an empty PART, which drops what a refused upload left, its parts, and the rest by a PUT."""
        text = charmap.text
        requests = [Request(caller, Op.PART)]
        at = 0
        while len(text) - at > frames.MAX_BODY:
            requests.append(Request(caller, Op.PART, text[at : at + frames.MAX_BODY]))
            at += frames.MAX_BODY
        requests.append(Request(caller, Op.PUT, text[at:]))
        replies = yield requests
        for reply in replies[:-1]:
            if reply.status != Status.OK:
                raise RequestRefused("PART", reply.status)
        return replies[-1]


def _server_name(encoding: Encoding) -> bytes:
    try:
        return encoding.name.encode("ascii")
    except UnicodeEncodeError as error:
        raise UnknownEncoding(encoding.name) from error
