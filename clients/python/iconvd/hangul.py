"""The codes of eight bytes that KS X 1001 (annex 3) has for syllables of Hangul: a filler, and the codes of their letters."""

from __future__ import annotations

from itertools import product
from typing import Iterator, List, Tuple

_FIRST = 0xAC00
_FILLER = "\u3164"
#: The letters in the order of Unicode's syllables.
_INITIALS = "ㄱㄲㄴㄷㄸㄹㅁㅂㅃㅅㅆㅇㅈㅉㅊㅋㅌㅍㅎ"
_MEDIALS = "ㅏㅐㅑㅒㅓㅔㅕㅖㅗㅘㅙㅚㅛㅜㅝㅞㅟㅠㅡㅢㅣ"
_FINALS = _FILLER + "ㄱㄲㄳㄴㄵㄶㄷㄹㄺㄻㄼㄽㄾㄿㅀㅁㅂㅄㅅㅆㅇㅈㅊㅋㅌㅍㅎ"


def _runs_of(letters: str) -> List[Tuple[int, int]]:
    """Returns the places of letters whose codes count up, and how many they are."""
    begins = [at for at in range(len(letters)) if at == 0 or ord(letters[at]) != ord(letters[at - 1]) + 1]
    return [(begin, end - begin) for begin, end in zip(begins, [*begins[1:], len(letters)])]


_RUNS = _runs_of(_FINALS)


def _code(letter: str) -> bytes:
    """Returns the code of a letter, which are in one row."""
    return bytes((0xA4, 0xA1 + ord(letter) - ord(_INITIALS[0])))


def runs() -> Iterator[Tuple[int, int, bytes]]:
    """Yields all syllables in runs whose codes count up: the first, the last, and the code of the first."""
    for number, letters in enumerate(product(_FILLER, _INITIALS, _MEDIALS)):
        before, first = b"".join(map(_code, letters)), _FIRST + number * len(_FINALS)
        for place, size in _RUNS:
            yield first + place, first + place + size - 1, before + _code(_FINALS[place])
