"""Decoding many texts at once, as a generator over a session: their requests share the round trips."""

from __future__ import annotations

from functools import partial
from typing import Callable, Dict, List, NamedTuple, Sequence, TypeVar

from . import frames, marks
from .errors import CharmapRefused, UnknownEncoding
from .frames import Request
from .library import Library
from .names import Encoding, is_direct
from .session import UTF_7, UTF_8, Pair, Session, Steps
from .set_text import decoder_of

T = TypeVar("T")
US_ASCII = Encoding(False, "US-ASCII")
#: How many texts are decoded at once.
_MOST = 1024


class Encoded(NamedTuple):
    """Bytes in an encoding, by a name that a message has."""

    charset: str
    data: bytes


class Decoding(NamedTuple):
    """How texts are decoded."""

    library: Library
    errors: str

    def encoding(self, charset: str) -> Encoding:
        """Returns the encoding of a name: US-ASCII if the name is unknown."""
        try:
            return self.library.find(charset)
        except UnknownEncoding:
            return US_ASCII

    def is_plain(self, charset: str) -> bool:
        """Whether an encoding has neither a mark nor shifts."""
        encoding = self.encoding(charset)
        return is_direct(encoding) and marks.mark_of(encoding)[0] == encoding and encoding != UTF_7

    def steps(self, session: Session, text: Encoded, encoding: Encoding) -> Steps[str]:
        """Decodes one text, as US-ASCII if a charmap is missing or refused."""
        ordered, begin = marks.without_mark(encoding, text.data)
        try:
            codec = decoder_of(text.charset, ordered, self.library)
            return (yield from codec.decode(session, text.data, self.errors, True, begin)).text
        except CharmapRefused:
            return (yield from self.steps(session, text, US_ASCII))


def side_by_side(running: Sequence[Steps[T]]) -> Steps[List[T]]:
    """Runs several steps. In each round trip each of them sends what it has to send."""
    waiting: Dict[int, List[Request]] = {}
    ended: Dict[int, T] = {}

    def go_on(place: int, ask: Callable[[], List[Request]]) -> None:
        try:
            waiting[place] = ask()
        except StopIteration as stopped:
            waiting.pop(place, None)
            ended[place] = stopped.value

    for place, steps in enumerate(running):
        go_on(place, steps.__next__)
    while waiting:
        asked = list(waiting.items())
        replies = iter((yield [request for _, requests in asked for request in requests]))
        for place, requests in asked:
            go_on(place, partial(running[place].send, [next(replies) for _ in requests]))
    return [ended[place] for place in range(len(running))]


def decode_all(session: Session, texts: Sequence[Encoded], decoding: Decoding) -> Steps[List[str]]:
    """Decodes texts. One in an encoding that is unknown, or whose charmap is missing or refused, is read as US-ASCII.

    Texts in UTF-7 share a descriptor and its state. Each begins with a RESET, which is sent together with all of a short text. Long
    texts are decoded one after the other."""
    encodings: Dict[str, Encoding] = {}
    for charset in {text.charset for text in texts}:
        encodings[charset] = decoding.encoding(charset)
        if is_direct(encodings[charset]):
            # Opened once, so that the texts do not wait for each other.
            try:
                yield from session.descriptor(Pair(UTF_8, marks.without_mark(encodings[charset], b"")[0]))
            except CharmapRefused:
                encodings[charset] = US_ASCII
    running = [decoding.steps(session, text, encodings[text.charset]) for text in texts]
    found: Dict[int, str] = {}
    for place, text in enumerate(texts):
        if encodings[text.charset] == UTF_7 and len(text.data) > frames.CHUNK:
            found[place] = yield from running[place]
    short = [place for place in range(len(texts)) if place not in found]
    for begin in range(0, len(short), _MOST):
        places = short[begin : begin + _MOST]
        found.update(zip(places, (yield from side_by_side([running[place] for place in places]))))
    return [found[place] for place in range(len(texts))]
