"""Installing: a source distribution and a wheel have the table of names, and what is installed from them has all names."""

from __future__ import annotations

import glob
import importlib.util
import os
import shutil
import subprocess
import sys
import tarfile
import tempfile
import unittest
import zipfile
from typing import List

from support import HERE, SERVER

FOLDER = os.path.dirname(HERE)
ASK = """
import iconvd, iconvd.names, sys
assert iconvd.__file__.startswith(sys.argv[1]), iconvd.__file__
assert len(iconvd.names.table().exact) > 850, len(iconvd.names.table().exact)
print(iconvd.decode(b"\\xc1", "KOI8-R") if hasattr(iconvd, "decode") else iconvd.convert(b"\\xc1", to="UTF-8", source="KOI8-R").decode())
"""
HAS_SETUPTOOLS = bool(importlib.util.find_spec("setuptools") and importlib.util.find_spec("wheel"))
HAS_PIP = bool(importlib.util.find_spec("pip"))


def run(words: List[str], folder: str) -> str:
    """Runs a command without the network and without this folder in Python's path, and returns what it prints."""
    environment = {name: value for name, value in os.environ.items() if name != "PYTHONPATH"}
    environment.update(ICONVD=SERVER, PIP_NO_INDEX="1", PIP_DISABLE_PIP_VERSION_CHECK="1", PYTHONDONTWRITEBYTECODE="1")
    ran = subprocess.run(words, cwd=folder, env=environment, stdout=subprocess.PIPE, stderr=subprocess.STDOUT, text=True, check=False)
    if ran.returncode:
        raise AssertionError(f"{words}: {ran.stdout[-3000:]}")
    return ran.stdout


class Install(unittest.TestCase):
    def setUp(self) -> None:
        holder = tempfile.TemporaryDirectory()
        self.addCleanup(holder.cleanup)
        self.room = holder.name
        self.target = os.path.join(self.room, "target")
        # As it is cloned: without what `make` leaves in the folder.
        self.source = os.path.join(self.room, "clients", "python")
        left = shutil.ignore_patterns("data", "out", "build", "*.egg-info", "__pycache__", ".mypy_cache")
        shutil.copytree(FOLDER, self.source, ignore=left)
        shutil.copytree(os.path.join(os.path.dirname(FOLDER), "names"), os.path.join(self.room, "clients", "names"), ignore=left)

    def check(self, place: str) -> None:
        ask = f"import sys; sys.path.insert(0, {place!r})\n" + ASK
        self.assertEqual(run([sys.executable, "-P" if sys.version_info >= (3, 11) else "-B", "-c", ask, place], self.room).strip(), "а")

    def build(self, folder: str, kind: str) -> str:
        code = f"from setuptools import build_meta; build_meta.build_{kind}({self.room!r})"
        run([sys.executable, "-c", code], folder)
        (made,) = glob.glob(os.path.join(self.room, "*.tar.gz" if kind == "sdist" else "*.whl"))
        return made

    def test_source_distribution_and_wheel(self) -> None:
        self.assertTrue(HAS_SETUPTOOLS, "Debian's python3-setuptools or python3-wheel is not there")
        with tarfile.open(self.build(self.source, "sdist")) as packed:
            self.assertTrue([name for name in packed.getnames() if name.endswith("/iconvd/data/names.tsv")])
            packed.extractall(self.room)
        (unpacked,) = glob.glob(os.path.join(self.room, "iconvd-*/"))
        # The source distribution has no generator, and needs none.
        with zipfile.ZipFile(self.build(unpacked, "wheel")) as wheel:
            self.assertIn("iconvd/data/names.tsv", wheel.namelist())
            self.assertIn("iconvd/py.typed", wheel.namelist())
            wheel.extractall(self.target)
        self.check(self.target)

    def test_pip_install_of_the_folder(self) -> None:
        self.assertTrue(HAS_SETUPTOOLS and HAS_PIP, "Debian's python3-pip, python3-setuptools or python3-wheel is not there")
        pip = [sys.executable, "-m", "pip", "install", "--no-index", "--no-build-isolation", "--no-deps", "--target", self.target]
        run([*pip, self.source], self.room)
        self.check(self.target)

    def test_make_install(self) -> None:
        """It goes where this Python looks below the prefix."""
        run(["make", "install", f"PYTHON={sys.executable}", f"INSTALL_PYTHON={sys.executable}", "PREFIX=/usr/local", f"DESTDIR={self.room}/root"], self.source)
        (place,) = glob.glob(os.path.join(self.room, "root/usr/local/lib/python3*/*-packages"))
        known = run([sys.executable, "-c", "import site; print(site.getsitepackages())"], self.room)
        inside = place[len(self.room + "/root") :]
        if "/usr/local/lib/" in known:
            self.assertIn(inside, known)
        self.check(place)


if __name__ == "__main__":
    unittest.main()
