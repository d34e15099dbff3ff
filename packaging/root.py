"""A root with a small Debian in it, for checks that install something.

mmdebstrap fetches the root from Debian once. A check unpacks it anew each time, runs commands in it, and counts their results.
"""
from __future__ import annotations

import re
import shutil
import subprocess
import sys
from pathlib import Path
from typing import NamedTuple

TOP = Path(__file__).resolve().parent.parent
SECONDS = 60  # a command of a row that takes longer hangs
LONG = 1800


class Row(NamedTuple):
    """A command, and the lines that it prints."""

    command: str
    wanted: list[str]


def rows_in(text: str) -> list[Row]:
    """The rows of a text: a command after `$ `, then the lines that it prints."""
    rows: list[Row] = []
    for line in text.splitlines():
        if line.startswith("$ "):
            rows.append(Row(line[2:], []))
        elif line and rows:
            rows[-1].wanted.append(line)
    return rows


class Counts:
    """Prints the result of each check, and counts them."""

    def __init__(self) -> None:
        self.passed = self.failed = 0

    def note(self, name: str, is_well: bool, why: str = "") -> None:
        self.passed, self.failed = self.passed + is_well, self.failed + (not is_well)
        print(f"ok      {name}" if is_well else f"FAILED  {name}\n{why.rstrip()}", flush=True)


def run(*words: str | Path) -> subprocess.CompletedProcess[str]:
    return subprocess.run(
        [str(it) for it in words], cwd=TOP, stdin=subprocess.DEVNULL, stdout=subprocess.PIPE, stderr=subprocess.STDOUT, text=True,
        errors="replace", check=False, timeout=LONG,
    )


class Root:
    """A root, and the environment of the commands in it."""

    def __init__(self, folder: Path, path: str, user: str = "root", home: str = "/") -> None:
        self.folder, self.path, self.user, self.home = folder, path, user, home
        self.seconds = SECONDS

    def unpack(self, base: Path, included: str) -> None:
        """Makes the root anew, from the file of an earlier run with the same packages if there is one, or else from Debian."""
        listed = base.with_suffix(".packages")
        if not base.is_file() or (listed.is_file() and listed.read_text() != included):
            print("Debian's smallest system is fetched for the root, once", flush=True)
            suite = re.search(r"^VERSION_CODENAME=(\w+)$", Path("/etc/os-release").read_text(), re.M)
            part = base.with_suffix(".part.tar")
            made = run("mmdebstrap", "--quiet", "--variant=apt", f"--include={included}", suite[1] if suite else "stable", part)
            if made.returncode:
                sys.exit(f"there is no root to install in:\n{made.stdout}")
            listed.write_text(included)
            part.rename(base)
        shutil.rmtree(self.folder, ignore_errors=True)
        self.folder.mkdir()
        subprocess.run(["tar", "--extract", "--file", base, "--directory", self.folder], check=True)

    def words(self, command: str) -> list[str]:
        """The command that runs a shell command in the root, which ends with all that it started. /proc has only these processes
        there."""
        alone = ["unshare", "--mount", "--pid", "--fork", "--kill-child", f"--mount-proc={self.folder}/proc"]
        environment = ["env", "-i", f"PATH={self.path}", f"HOME={self.home}", "LC_ALL=C.UTF-8"]
        other = [] if self.user == "root" else ["/sbin/runuser", "-u", self.user, "--"]
        return [*alone, "chroot", str(self.folder), *environment, *other, "bash", "-c", command]

    def printed_by(self, command: str) -> str:
        """The standard output of a command in the root."""
        try:
            ran = subprocess.run(
                self.words(command), stdin=subprocess.DEVNULL, stdout=subprocess.PIPE, stderr=subprocess.DEVNULL, text=True,
                errors="replace", check=False, timeout=self.seconds,
            )
        except subprocess.TimeoutExpired:
            return f"it had not ended after {self.seconds} seconds"
        return ran.stdout

    def check_row(self, row: Row, counts: Counts) -> None:
        """Tests that a command prints its lines."""
        printed = self.printed_by(row.command)
        is_well = printed.splitlines() == row.wanted
        counts.note(f"$ {row.command}", is_well, "".join(f"  it printed {line}\n" for line in printed.splitlines() or ["nothing"]))

    def remove(self) -> None:
        shutil.rmtree(self.folder)
