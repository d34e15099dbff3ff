"""The tables that the package has: the C library has the same ones, from the same sources."""

from __future__ import annotations

import os
from typing import List


def read_rows(file: str) -> List[List[str]]:
    """Returns the rows of a table, without its comments. Without the file there are none."""
    path = os.path.join(os.path.dirname(os.path.abspath(__file__)), "data", file)
    try:
        with open(path, encoding="utf-8") as lines:
            return [line.rstrip("\n").split("\t") for line in lines if line.strip() and not line.startswith("#")]
    except FileNotFoundError:
        return []
