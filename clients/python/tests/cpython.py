"""Runs CPython's own codec tests (Debian's libpython3.11-testsuite) with `iconvd-` names in place of its own.

Each test that fails is of a kind in EXPECTED, with the reason; any other failure fails the run. Prints the counts by encoding: of the
test classes of one encoding each, of the tests of all codecs (`all`), and of those of the codecs of several bytes (`multibyte`).
"""

from __future__ import annotations

import ast
import codecs
import importlib
import os
import re
import sys
import unittest
from types import ModuleType
from typing import List, Tuple

HERE = os.path.dirname(os.path.abspath(__file__))
sys.path.insert(0, os.path.dirname(HERE))
os.environ["ICONVD"] = f"exec:{os.environ.get('ICONVD_PROGRAM', '')} pipe"

import iconvd  # noqa: E402
from iconvd import names  # noqa: E402

MODULES = [
    "test.test_codecs",
    "test.test_codecencodings_cn",
    "test.test_codecencodings_hk",
    "test.test_codecencodings_iso2022",
    "test.test_codecencodings_jp",
    "test.test_codecencodings_kr",
    "test.test_codecencodings_tw",
]
#: Test (a pattern of `encoding.test`), and why it differs.
EXPECTED: List[Tuple[str, str]] = [
    (r".*\.test_incrementalencoder_del_segfault", "an encoder that is written in Python lets its attributes be deleted"),
    (r"iconvd-utf-8(-sig)?\.test_lone_surrogates", "the exception has the whole run of surrogates, also those that surrogateescape could take"),
    (r"iconvd-utf-7\.test_ascii", "the optional direct characters of RFC 2152 are written shifted"),
    (r"iconvd-utf-7\.test_(incremental_surrogatepass|nonbmp)", "CPython writes lone surrogates; RFC 2152 has none"),
    (r"multibyte\.test_subinterp", "another interpreter, where the codecs are not registered"),
]


def classes() -> List[type]:
    """Returns the test classes that have an encoding which both have, with its name changed."""
    found = []
    for module in MODULES:
        for name, case in vars(importlib.import_module(module)).items():
            encoding = getattr(case, "encoding", None)
            if not (isinstance(case, type) and issubclass(case, unittest.TestCase) and isinstance(encoding, str) and encoding):
                continue
            try:
                names.find(encoding.replace("_", "-"))
            except iconvd.UnknownEncoding:
                continue
            found.append(type(f"{name}", (case,), {"encoding": "iconvd-" + encoding.replace("_", "-"), "__module__": module}))
    return found


def _ours(name: str) -> str:
    """Returns our name of one of CPython's codecs, or the name itself if there is none."""
    try:
        return "iconvd-" + name if iconvd.supports(name) and codecs.lookup(name)._is_text_encoding else name  # type: ignore[attr-defined]
    except LookupError:
        return name


def classes_of_all() -> List[type]:
    """Returns the test class that goes through all codecs."""
    module = importlib.import_module("test.test_codecs")
    module.all_unicode_encodings[:] = [_ours(name) for name in module.all_unicode_encodings]
    return [type("BasicUnicodeTest", (module.BasicUnicodeTest,), {"encoding": "all", "__module__": module.__name__})]


class _Names(ast.NodeTransformer):
    """Changes the names of codecs that a program has."""

    def visit_Constant(self, node: ast.Constant) -> ast.Constant:
        return ast.copy_location(ast.Constant(_ours(node.value)), node) if isinstance(node.value, str) and len(node.value) > 1 else node


def classes_of_several_bytes() -> List[type]:
    """Returns the test classes of the codecs of several bytes, with the names in their text changed."""
    origin = importlib.import_module("test.test_multibytecodec").__file__
    assert origin is not None
    with open(origin, encoding="utf-8") as file:
        text = _Names().visit(ast.parse(file.read()))
    module = ModuleType("multibyte")
    exec(compile(text, origin, "exec"), module.__dict__)
    cases = [case for case in vars(module).values() if isinstance(case, type) and issubclass(case, unittest.TestCase)]
    return [type(case.__name__, (case,), {"names": "multibyte"}) for case in cases]


def run() -> Tuple[int, int, int]:
    """Runs them all, and returns how many passed, failed and were skipped. A difference of a known kind counts as passed."""
    iconvd.register()
    passed = failed = skipped = known = 0
    for case in classes() + classes_of_all() + classes_of_several_bytes():
        family = getattr(case, "names", None) or case.encoding
        result = unittest.TestResult()
        unittest.defaultTestLoader.loadTestsFromTestCase(case).run(result)
        bad = {test.id().rsplit(".", 1)[-1].split(" ")[0]: text for test, text in result.failures + result.errors}
        expected = 0
        for test, text in bad.items():
            name = f"{family}.{test}"
            if any(re.fullmatch(pattern, name) for pattern, _ in EXPECTED):
                expected += 1
            else:
                print(ascii(f"{name}: {text.strip().splitlines()[-1][:150]}")[1:-1])
        passed += result.testsRun - len(bad) - len(result.skipped) + expected
        failed += len(bad) - expected
        skipped += len(result.skipped)
        known += expected
        print(f"{family}: {result.testsRun} run, {len(bad)} differ, {expected} of them as expected")
    print(f"{known} of CPython's tests differ as expected")
    return passed, failed, skipped


if __name__ == "__main__":
    sys.exit(1 if run()[1] else 0)
