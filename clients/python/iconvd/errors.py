"""The exceptions of this package, and the reasons of faults."""

from __future__ import annotations

#: CPython's reasons in encodings of several bytes.
ILLEGAL = "illegal multibyte sequence"
INCOMPLETE = "incomplete multibyte sequence"


class IconvdError(Exception):
    """The base of all exceptions of this package."""


class ServerLost(IconvdError, ConnectionError):
    """The server can't be reached, ended the stream, did not answer in time, or sent bytes that are not a reply."""


class TimedOut(ServerLost, TimeoutError):
    """The server did not answer within the time limit. The request is not tried again."""


class NotStarted(ServerLost):
    """The program of an `exec:` address can't be started."""


class NotReached(ServerLost):
    """No stream to the server can be made: nothing listens at its address."""


class ServerBusy(ServerLost):
    """The server ends new streams before their first reply, or accepts none: it is full or draining."""


class UnknownEncoding(IconvdError, LookupError):
    """No built-in encoding and no charmap has this name."""

    def __init__(self, name: str) -> None:
        super().__init__(f"unknown encoding: {name!r}")
        self.name = name


class RequestRefused(IconvdError):
    """The server refused a request. `status` has the number, as in `Status`."""

    def __init__(self, what: str, status: int) -> None:
        super().__init__(f"{what} was refused: status {status}")
        self.status = status


class CharmapRefused(IconvdError, LookupError, ValueError):
    """A charmap is missing, can't be read, or was refused by the server. `line` is 0 if no single line is at fault."""

    def __init__(self, name: str, why: str, line: int = 0) -> None:
        super().__init__(f"charmap {name}: " + (f"line {line}: {why}" if line else why))
        self.name = name
        self.line = line
        self.why = why


class ConversionError(IconvdError, ValueError):
    """Bytes can't be converted. `position` is the offset in the input of the first byte that was not converted."""

    def __init__(self, reason: str, position: int) -> None:
        super().__init__(f"at byte {position}: {reason}")
        self.reason = reason
        self.position = position
