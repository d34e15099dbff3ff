"""Runs iconvd-benchmark, built with sanitizers, and counts the checks that pass."""

from __future__ import annotations

import json
import os
import subprocess
from typing import Any, Dict, List

TOP = os.path.join(os.path.dirname(os.path.abspath(__file__)), "..", "..")
CLIENT = os.path.join(TOP, "clients", "c")
SANITIZED = "-O1 -g -fsanitize=address,undefined -fno-sanitize-recover=undefined"
PROGRAM = os.path.join(CLIENT, "out", "asan", "iconvd-benchmark")


def build() -> None:
    """Builds the program."""
    os.makedirs(os.path.dirname(PROGRAM), exist_ok=True)
    subprocess.run(["make", "-s", "-C", CLIENT, "OUT=out/asan", f"CFLAGS={SANITIZED}", "out/asan/iconvd-benchmark"], check=True)


class Benchmark:
    """The program, and counts. A run that does not end has the status -1, and the check fails."""

    def __init__(self, service: str) -> None:
        self._service = service
        self.passed = 0
        self.failed = 0

    def run(self, words: List[str], where: str = "", patience: float = 120) -> "subprocess.CompletedProcess[str]":
        command = [PROGRAM, *words, where or self._service]
        try:
            return subprocess.run(command, capture_output=True, text=True, timeout=patience, check=False)
        except subprocess.TimeoutExpired:
            return subprocess.CompletedProcess(command, -1, "", "it did not end")

    def figures(self, words: List[str], where: str = "") -> Dict[str, Any]:
        """Runs with --json. Returns an empty object if none was printed."""
        said = self.run(["--json", *words], where).stdout
        found: Dict[str, Any] = json.loads(said) if said else {}
        return found

    def check(self, holds: bool, what: str) -> None:
        self.passed += holds
        self.failed += not holds
        print(f"{'ok' if holds else 'FAILED'}: {what}", flush=True)
