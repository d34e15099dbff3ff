"""Tests the names in the packages: other packages in their control fields, and paths in the documents, manual pages and units that they install.

An absolute path is in the root in which the packages are installed, or below one of OTHERS. A path of the source tree is in that tree, and the page's
note, which tools/documents writes, names its folder. A bare name such as OPERATING.md is that of a page in the same folder.
"""
from __future__ import annotations

import gzip
import re
from collections.abc import Iterator
from pathlib import Path

from root import TOP, Counts, Root, run

RECOMMENDED = {
    "iconvd-convert": "locales", "iconvd-preload": "iconvd", "libiconvd0": "iconvd", "python3-iconvd": "locales",
}
# Paths below these exist only once something runs, or belong to another package or to the administrator.
OTHERS = ("/dev", "/tmp", "/run", "/var/run", "/etc/haproxy", "/var/lib/haproxy", "/etc/prometheus", "/opt")
READ = ("usr/share/doc/", "usr/share/man/", "usr/lib/systemd/")
NOT_TEXT = (".svg", ".json", ".tsv")
# An example with these words is used in the source tree. Its absolute paths are those of the container that it makes.
IN_TREE = "From the top of the repository"

ABSOLUTE = re.compile(r"(?<![\w.@~*/-])/(?:usr|etc|run|var|opt|lib|bin|sbin|dev|proc|sys|srv|home|tmp)(?:/[\w.@*+-]+)*")
BELOW_PREFIX = re.compile(r"(?<![\w./@-])(?:share|lib)/[\w.@*-]+(?:/[\w.@*-]+)*")
SOURCE = re.compile(r"(?<![\w./@-])(?:bench|clients|contrib|crates|docs|man|out|packaging|tests|tools)/(?:[\w.@*-]+/?)*")
PAGE = re.compile(r"(?<![\w./-])[A-Z]+\.md\b")
LINK = re.compile(r"\]\((?![a-z]+:|#)([^)#\s]+)")
NOTE = re.compile(r"^Names that begin with (.*?) are of\s+the\s+source\s+archive", re.M | re.S)


def check_fields(packages: list[Path], counts: Counts) -> None:
    """Tests which packages each package recommends."""
    for package in packages:
        name = package.name.partition("_")[0]
        recommended = run("dpkg-deb", "--field", package, "Recommends").stdout.strip()
        counts.note(f"{name}: recommends {RECOMMENDED.get(name, 'nothing')}", recommended == RECOMMENDED.get(name, ""), f"  it has {recommended}")


def is_there(folder: Path, name: str) -> bool:
    """Whether a path, or one that a pattern matches, is below a folder."""
    return any(True for _ in folder.glob(name)) if "*" in name else (folder / name).exists()


def text_of(path: Path) -> str:
    """A file's text. In a manual page a hyphen is written with a backslash."""
    text = (gzip.decompress(path.read_bytes()) if path.suffix == ".gz" else path.read_bytes()).decode()
    return text.replace(r"\-", "-") if "/man/" in str(path) else text


def wrong_paths(root: Path, path: Path, text: str) -> Iterator[str]:
    """The paths in a file's text that do not exist."""
    noted = NOTE.search(text)
    allowed = set(re.findall(r"`([^`]+)`", noted[1])) if noted else set()
    body = text.replace(noted[0], "") if noted else text
    for name in {it.rstrip(".") for it in ABSOLUTE.findall(body) if IN_TREE not in text}:
        if not name.startswith(OTHERS) and not is_there(root, name[1:]):
            yield name
    for name in {it.rstrip(".") for it in BELOW_PREFIX.findall(body)}:
        if not is_there(root / "usr", name):
            yield name
    for name in {it.rstrip("./") for it in SOURCE.findall(body)}:
        is_marked = f"{name.partition('/')[0]}/" in allowed or IN_TREE in text
        is_made = "out" in name.split("/")
        if not is_marked or not (is_made or is_there(TOP, name)):
            yield name
    for name in {*PAGE.findall(body)} - allowed:
        if not (root / "usr/share/doc/iconvd" / name).exists():
            yield name
    if path.suffix == ".md":
        yield from (name for name in LINK.findall(body) if not (path.parent / name).exists())


def check_paths(root: Root, names: list[str], counts: Counts) -> None:
    """Tests the paths in all texts that the packages install."""
    for name in names:
        listed = next((root.folder / "var/lib/dpkg/info").glob(f"{name}*.list")).read_text(encoding="utf-8").splitlines()
        files = [root.folder / it[1:] for it in listed if it[1:].startswith(READ) and not it.endswith(NOT_TEXT)]
        for path in (it for it in files if it.is_file()):
            wrong = sorted(wrong_paths(root.folder, path, text_of(path)))
            counts.note(f"{path.relative_to(root.folder)}: the paths that it names are there", not wrong, "".join(f"  {it}\n" for it in wrong))
