"""Names: all that WHATWG, CPython and IANA have are names here, or the list of what is left out has the reason."""

from __future__ import annotations

import encodings.aliases
import os
import pkgutil
import re
import shutil
import sys
import tempfile
import unittest
from typing import Dict, Set
from unittest import mock

from support import HERE, ClientTest

import iconvd
from iconvd import names

SOURCES = os.path.join(os.path.dirname(os.path.dirname(HERE)), "names")
sys.path.insert(0, SOURCES)

sys.path.insert(0, os.path.join(os.path.dirname(SOURCES), "c"))

import generate  # noqa: E402
import labels  # noqa: E402
import tables  # noqa: E402

#: Hostile names, and names that begin as others do.
NONE = ["", "-", "no-such-charset", "../../../etc/passwd", "utf-8//IGNORE", "iconvd-utf-8", "x" * 100_000, "é", "8", "iso-ir-9-9", "utf"[:2]]


def table(is_python: bool = True) -> labels.Table:
    """Returns the names without the labels, and with them what the clients have."""
    found = {name: ("charmap" if each.is_charmap else "builtin", each.name) for name, each in names.table().exact.items()}
    return found if is_python else {name: row for name, row in found.items() if row[1] not in labels.PYTHON_OWN}


def reasons() -> Set[str]:
    """Returns the encodings that are left out with a reason."""
    return {generate.normal(row[0]) for row in generate.read_table(os.path.join(SOURCES, "left_out.tsv"))}


class Names(ClientTest):
    def test_each_label_is_a_name_or_is_left_out_with_a_reason(self) -> None:
        self.assertEqual(labels.left_out(table(), generate.normal, reasons()), [])
        counts = {"whatwg": 0, "cpython": 0, "iana": 0, "glibc": 0, "python": 0}
        for label in labels.read():
            counts[label.source] += 1
            same = label.name in ("ms_kanji", "mskanji") or iconvd.supports(label.name) == iconvd.supports(label.encoding)
            self.assertTrue(same, label)
            if iconvd.supports(label.encoding) and label.name not in ("ms_kanji", "mskanji"):
                self.assertEqual(names.find(label.name), names.find(label.encoding), label)
        self.assertEqual(counts["whatwg"], 228)

    def test_what_is_left_out_is_no_name(self) -> None:
        """Also not as a spelling of another name: ISO-IR-9-1 is a name, and ISO-IR-91 is none."""
        # ISO_10646 is the name of a charmap that the service refuses, and a spelling of ISO-10646, which is UTF-32BE.
        for name in reasons() - set(labels.PYTHON_OWN) - {"ISO_10646"}:
            self.assertFalse(iconvd.supports(name), name)
        for label in labels.read():
            if generate.normal(label.encoding) in reasons() - set(labels.PYTHON_OWN):
                self.assertFalse(iconvd.supports(label.name), label)
        self.assertTrue(iconvd.supports("ISO-IR-9-1"))
        self.assertFalse(iconvd.supports("ISO-IR-91"))

    def test_reasons_of_charmaps(self) -> None:
        """What is left out for want of a charmap has none, and the service refuses those that it is said to refuse."""
        files = {name: file for file, own in generate.read_charmaps(generate.CHARMAPS).items() for name in own}
        for name, reason in generate.read_table(os.path.join(SOURCES, "left_out.tsv")):
            file = files.get(generate.normal(name))
            if "no charmap" in reason:
                self.assertIsNone(file, name)
            elif reason.startswith("the service refuses"):
                assert file is not None, name
                with self.assertRaises(iconvd.CharmapRefused, msg=name):
                    self.client.upload(file)

    def test_all_of_this_cpython(self) -> None:
        """Each codec and alias of this Python, with underscores and with hyphens, is in the table of labels."""
        listed = {re.sub("[^a-z0-9]", "_", label.name) for label in labels.read()}
        modules = {module.name for module in pkgutil.iter_modules(encodings.__path__)} - {"aliases"}
        for alias in [*modules, *encodings.aliases.aliases, *encodings.aliases.aliases.values()]:
            self.assertTrue(re.sub("[^a-z0-9]", "_", alias.lower()) in listed, alias)
            for spelling in (alias, alias.upper(), alias.replace("_", "-"), alias.replace("_", "-", 1)):
                self.assertEqual(iconvd.supports(spelling), iconvd.supports(alias), spelling)

    def test_spellings(self) -> None:
        """The C library takes the same for a spelling of a name, and no spelling is one of two encodings."""
        meant: Dict[str, names.Encoding] = {}
        for name, encoding in names.table().exact.items():
            spelling = tables.loose(name)
            self.assertEqual(names.find(spelling), meant.setdefault(spelling, encoding), name)
            self.assertEqual(meant[spelling], encoding, name)
            self.assertEqual(names.find("_" + name.lower().replace("-", "_") + " "), encoding, name)

    def test_names_of_mail(self) -> None:
        for name in ("utf-8-sig", "1252", "u8", "cp65001", "ks_c_5601_1987", "ks_c_5601-1987", "mac_roman", "x-mac-roman", "x-cp1251", "L9", "x-gbk"):
            self.assertTrue(iconvd.supports(name), name)
        wanted = {"u8": "UTF-8", "cp65001": "UTF-8", "ks_c_5601-1987": "EUC-KR", "1252": "CP1252", "x-sjis": "WINDOWS-31J", "ms_kanji": "WINDOWS-31J"}
        self.assertEqual({name: names.find(name).name for name in wanted}, wanted)

    def test_hostile_names(self) -> None:
        for name in NONE:
            self.assertFalse(iconvd.supports(name), name[:40])

    def test_charmaps_that_are_missing(self) -> None:
        with tempfile.TemporaryDirectory() as folder, mock.patch.dict(os.environ, {"ICONVD_CHARMAPS": folder}):
            self.assertFalse(self.client.supports("KOI8-R"))
            self.assertTrue(self.client.supports("UTF-8"))
            shutil.copy(os.path.join(generate.CHARMAPS, "EUC-JISX0213.gz"), folder)
            # It also has codes of EUC-JP's charmap.
            self.assertFalse(self.client.supports("euc_jis_2004"))
            shutil.copy(os.path.join(generate.CHARMAPS, "EUC-JP.gz"), folder)
            self.assertTrue(self.client.supports("euc_jis_2004"))
        self.assertTrue(self.client.supports("koi8_r"))

    def test_charmaps_of_the_program(self) -> None:
        text = "<code_set_name> SUPPORTED\n<escape_char> /\nCHARMAP\n<U0041> /x41\n<U003F> /x3f\nEND CHARMAP\n"
        self.assertFalse(self.client.supports("SUPPORTED"))
        self.client.upload(text)
        self.assertTrue(self.client.supports("supported"))
        with self.assertRaises(iconvd.CharmapRefused):
            self.client.upload(text.replace("SUPPORTED", "REFUSED").replace("/x41", "/d999"))
        self.assertFalse(self.client.supports("REFUSED"))


if __name__ == "__main__":
    unittest.main()
