"""The target and the source of a conversion, by keyword, or by position in the older order."""

from __future__ import annotations

import warnings
from typing import List, NamedTuple, Tuple

_warned: List[bool] = []


class Ends(NamedTuple):
    """The arguments of `convert`."""

    to: str
    source: str
    errors: str


def ends(by_place: Tuple[str, ...], to: str, source: str, errors: str) -> Ends:
    """Returns the target, the source and the error handler. Warns of positional ones, once in a process."""
    if len(by_place) > 3:
        raise TypeError("convert() takes data, to, source and errors")
    if by_place and not _warned:
        _warned.append(True)
        message = "convert(data, TO, SOURCE) is deprecated, since its order is easily mistaken: use convert(data, to=TO, source=SOURCE)"
        warnings.warn(message, DeprecationWarning, stacklevel=3)
    found = Ends(*by_place, *(to, source, errors)[len(by_place) :])
    if not found.to or not found.source:
        raise TypeError("convert() needs to= and source=")
    return found
