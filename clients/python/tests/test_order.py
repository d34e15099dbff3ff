"""convert() by keyword, and in the older order with one warning in a process."""

from __future__ import annotations

import os
import subprocess
import sys
import unittest

from support import HERE, SERVER, ClientTest

import iconvd

TWICE = """
import asyncio, iconvd
client = iconvd.Client()
print(client.convert(b"\\xc1", "UTF-8", "KOI8-R"), client.convert(b"\\xc1", "UTF-8", "KOI8-R", "strict"))
print(iconvd.convert(b"\\xc1", to="UTF-8", source="KOI8-R"))
async def ask():
    async with iconvd.AsyncClient() as client:
        return await client.convert(b"\\xc1", "UTF-8", "KOI8-R")
print(asyncio.run(ask()))
"""


class Order(ClientTest):
    def test_by_keyword(self) -> None:
        self.assertEqual(self.client.convert(b"\xc1\xc2", to="UTF-8", source="KOI8-R"), "аб".encode())
        self.assertEqual(self.client.convert(b"\xc1\xff", source="UTF-8", to="KOI8-R", errors="replace"), b"??")
        for wrong in ({}, {"to": "UTF-8"}, {"source": "UTF-8"}, {"from": "UTF-8"}):
            with self.assertRaises(TypeError, msg=wrong):
                self.client.convert(b"", **wrong)  # type: ignore[call-overload]

    def test_the_older_order_is_warned_of_once(self) -> None:
        environment = {**os.environ, "ICONVD": SERVER, "PYTHONPATH": os.path.dirname(HERE)}
        ran = subprocess.run(
            [sys.executable, "-W", "always::DeprecationWarning", "-c", TWICE], env=environment, capture_output=True, text=True, check=False
        )
        self.assertEqual(ran.stdout.split(), [r"b'\xd0\xb0'"] * 4, ran.stderr)
        self.assertEqual(ran.stderr.count("DeprecationWarning: convert("), 1, ran.stderr)


if __name__ == "__main__":
    unittest.main()
