"""Makes the tables of the package before it is built. A source distribution has them, and the repository has what makes them."""

import pathlib
import shutil
import subprocess
import sys
from typing import List

from setuptools import setup

HERE = pathlib.Path(__file__).resolve().parent
TABLE = HERE / "iconvd" / "data" / "names.tsv"
GENERATOR = HERE.parent / "names" / "generate.py"


def is_made() -> bool:
    """Whether the tables are there, and no older than what they are made from."""
    sources = [*GENERATOR.parent.glob("*.py"), *GENERATOR.parent.glob("*.tsv")]
    return all(table.exists() for table in [TABLE, *copies()]) and all(
        TABLE.stat().st_mtime >= source.stat().st_mtime for source in sources
    )


def copies() -> List[pathlib.Path]:
    """Returns the tables that the package has as they are in the repository."""
    sources = [source for pattern in ("shifted_*.tsv", "repairs.tsv") for source in GENERATOR.parent.glob(pattern)]
    return [TABLE.parent / source.name for source in sources]


def make() -> None:
    """Makes the tables: that of the names from the files of the system."""
    if not GENERATOR.exists():
        sys.exit(f"setup.py: {TABLE} is missing, and the repository that makes it is not here")
    subprocess.run([sys.executable, str(GENERATOR), "--python", str(HERE / "out")], check=True)
    TABLE.parent.mkdir(exist_ok=True)
    for copy in copies():
        shutil.copyfile(GENERATOR.parent / copy.name, copy)
    for table in ("composing.tsv", TABLE.name):
        shutil.copyfile(HERE / "out" / table, TABLE.parent / table)


if not is_made():
    make()
setup()
