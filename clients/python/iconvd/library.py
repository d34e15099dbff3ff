"""The charmaps of a client and the forms of its encodings. Each is read once."""

from __future__ import annotations

from typing import Callable, Dict, Optional, Tuple, Union

from . import charmaps, coded_sets, forms, framings, joined, mappings, names, repairs, shifted, waiting
from .charmaps import Beginning, Charmap
from .coded_sets import CodedSet
from .codes import Beside, CharmapForm
from .errors import CharmapRefused, UnknownEncoding
from .forms import Form
from .framing import Framing
from .known import Known, known_of
from .names import Encoding
from .planes_form import COMPUTED

#: The beginning of the names of own charmaps. No file's name has it.
_OWN = "/"
#: How many spellings of names are kept.
_MAX_FOUND = 4096
#: The bytes of how many characters of an encoding are kept.
_MAX_KNOWN = 65_536


class Library:
    """The charmaps that were read, by the name of their file, and those of the caller's own."""

    def __init__(self) -> None:
        self._read: Dict[str, Charmap] = {}
        self._refused: Dict[str, CharmapRefused] = {}
        self._texts: Dict[str, bytes] = {}
        # The charmaps for writing, and what is done after it, of encodings with repairs.
        self._written: Dict[str, Charmap] = {}
        self._settle: Dict[str, Optional[Callable[[bytes], bytes]]] = {}
        self._beginnings: Dict[str, Optional[Beginning]] = {}
        self._found: Dict[str, Encoding] = {}
        self._forms: Dict[Encoding, Form] = {}
        self._known: Dict[Tuple[Encoding, str], Known] = {}
        self._framings: Dict[Encoding, Framing] = {}
        self._sets: Dict[str, CodedSet] = {}

    def find(self, name: str) -> Encoding:
        """Returns the encoding of that name, in any case of its letters. Raises UnknownEncoding."""
        found = self._found.get(name)
        if found is None:
            own = Encoding(True, _OWN + name.upper())
            found = own if own.name in self._read else repairs.variant(names.find(name), name)
            if len(self._found) < _MAX_FOUND:
                self._found[name] = found
        return found

    def supports(self, name: str) -> bool:
        """Whether an encoding has that name, and its charmaps are there. None is read or uploaded."""
        try:
            encoding = self.find(name)
        except UnknownEncoding:
            return False
        if not encoding.is_charmap or encoding.name in self._read:
            return True
        return encoding.name not in self._refused and all(map(charmaps.is_there, repairs.files_of(encoding.name)))

    def get(self, file: str) -> Charmap:
        """Returns the charmap of that file, which is read once. Raises CharmapRefused."""
        refused = self._refused.get(file)
        if refused is not None:
            raise CharmapRefused(refused.name, refused.why, refused.line)
        if file not in self._read:
            try:
                self._read[file] = self._mended(file)
            except CharmapRefused as error:
                self._refused[file] = error
                raise
        return self._read[file]

    def _mended(self, encoding: str) -> Charmap:
        file, repaired = repairs.of(encoding)
        text = self._texts.pop(encoding, b"") or charmaps.read_file(file)
        if repaired is None:
            return charmaps.mend(file, text)
        found = charmaps.repaired(encoding, text, repaired)
        self._written[encoding] = found.written
        before = mappings.last_bytes(found.written.body(), found.written.escape) if repaired.meant else {}
        self._settle[encoding] = repaired.settle(frozenset(each for each in before if len(each) == 1))
        return found.read

    def written(self, file: str) -> Charmap:
        """Returns the charmap that is uploaded for conversions to an encoding. Raises CharmapRefused."""
        read = self.get(file)
        return self._written.get(file, read)

    def settle(self, target: Encoding, output: bytes) -> bytes:
        """Returns what a conversion to an encoding means, from what the server wrote."""
        settled = self._settle.get(target.name) if self._settle else None
        return settled(output) if settled else output

    def is_computed(self, encoding: Encoding) -> bool:
        """Whether the client computes the characters of an encoding above U+FFFF; see planes.py."""
        if not encoding.is_charmap:
            return False
        repaired = repairs.of(encoding.name)[1]
        return repaired is not None and repaired.is_computed

    def beginning(self, file: str) -> Optional[Beginning]:
        """Returns the beginning of a long file, which is uploaded first, or None for all of it. Raises CharmapRefused."""
        if file not in self._beginnings and file not in self._read and file not in self._refused:
            name = repairs.of(file)[0]
            try:
                text = charmaps.read_file(name)
            except CharmapRefused as error:
                self._refused[file] = error
                raise
            self._beginnings[file] = None if name != file else charmaps.beginning(file, text)
            self._texts[file] = text
        return self._beginnings.get(file)

    def may_have_in_rest(self, encoding: Encoding, what: Union[str, bytes]) -> bool:
        """Whether the rest of an encoding whose beginning is uploaded may have a character, or the next bytes of a text."""
        form = self.form(encoding)
        if not isinstance(form, CharmapForm):
            return False
        return form.has_in_rest(what) if isinstance(what, str) else form.may_have_in_rest(what)

    def refuse_beginning(self, file: str) -> None:
        """Notes that the server refused the beginning of a file, so that all of it is uploaded."""
        self._beginnings[file] = None

    def uploaded(self, text: Union[bytes, str]) -> Tuple[Encoding, bool]:
        """Adds a charmap's text. Returns its encoding, or that of the system's file if the text is one word, and whether it was
        added."""
        if isinstance(text, str) and "\n" not in text:
            return Encoding(True, text), False
        return self._add(text if isinstance(text, bytes) else text.encode("utf-8")), True

    def _add(self, text: bytes) -> Encoding:
        """Adds a charmap of the caller's own, by the name in its text. Raises CharmapRefused if the name is taken."""
        charmap = charmaps.own(text)
        name = charmap.name.decode("latin-1")
        try:
            self.find(name)
        except UnknownEncoding:
            added = Encoding(True, _OWN + name.upper())
            self._refused.pop(added.name, None)
            self._read[added.name] = charmap
            self._found.clear()
            return added
        raise CharmapRefused(name, "an encoding has this name")

    def remove(self, added: Encoding) -> None:
        """Removes a charmap of the caller's own, which the server refused."""
        self._found.clear()
        self._read.pop(added.name, None)
        self._forms.pop(added, None)

    def refuse(self, error: CharmapRefused, file: str) -> None:
        """Notes that the server refused a charmap, so that it is not uploaded again."""
        self._refused[file] = error

    def form(self, encoding: Encoding) -> Form:
        """Returns the form of an encoding."""
        found = self._forms.get(encoding)
        if found is None:
            found = self._forms[encoding] = self._make_form(encoding)
        return found

    def _make_form(self, encoding: Encoding) -> Form:
        if encoding.is_charmap:
            beginning = self.beginning(encoding.name)
            if beginning is not None:
                return CharmapForm(beginning.charmap, beginning.rest)
            repaired = repairs.of(encoding.name)[1]
            faults = repaired.faults if repaired else frozenset()
            beside = Beside(COMPUTED if self.is_computed(encoding) else None, waiting.pattern_of(encoding), faults)
            form = CharmapForm(self.get(encoding.name), written=self.written(encoding.name), beside=beside)
            pairs = joined.pairs_of(encoding)
            form.pairs = pairs.written if pairs else {}
            return form
        return shifted.Utf7Form() if encoding.name == "UTF-7" else forms.BUILTIN[encoding.name]()

    def known(self, encoding: Encoding, errors: str = "") -> Known:
        """Returns the known characters of an encoding with their bytes, also the bytes of what an error handler gives for
        characters that the encoding lacks."""
        known = self._known.get((encoding, errors))
        if known is None or len(known) > _MAX_KNOWN:
            known = self._known[encoding, errors] = known_of(self.form(encoding))
        return known

    # ---- encodings with escapes and shifts

    def framing(self, encoding: Encoding) -> Framing:
        """Returns how an encoding with escapes or shifts is read and written."""
        found = self._framings.get(encoding)
        if found is None:
            found = self._framings[encoding] = framings.framing(encoding.name, self.coded_set)
        return found

    def coded_set(self, name: str) -> CodedSet:
        """Returns a coded character set, from the charmap of the encoding that converts it. Raises CharmapRefused."""
        found = self._sets.get(name)
        if found is None:
            found = self._sets[name] = self._make_set(coded_sets.rows()[name])
        return found

    def _make_set(self, row: coded_sets.SetRow) -> CodedSet:
        if not row.encoding.is_charmap:
            return CodedSet(row, [(0, 256, 0, 1)], {})
        charmap = self.get(row.encoding.name)
        pairs = mappings.pairs(charmaps.read_file(row.encoding.name), charmap.escape) if row.composes else {}
        return CodedSet(row, mappings.ranges(charmap.body(), charmap.escape), pairs)
