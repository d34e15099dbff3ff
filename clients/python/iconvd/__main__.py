"""python3 -m iconvd: converts files, tests whether a server answers, lists charmaps."""

from __future__ import annotations

import argparse
import sys
from typing import BinaryIO, List, Optional

from . import charmaps, names
from .client import Client
from .errors import CharmapRefused, IconvdError


def convert(client: Client, options: argparse.Namespace) -> int:
    """Converts a file, or standard input, to standard output."""
    source: BinaryIO = sys.stdin.buffer if options.file in (None, "-") else open(options.file, "rb")
    with source:
        for piece in client.convert_file(source, options.to_code, options.from_code, options.errors):
            sys.stdout.buffer.write(piece)
    sys.stdout.buffer.flush()
    return 0


def ping(client: Client, _options: argparse.Namespace) -> int:
    """Asks the server for a reply."""
    client.ping()
    print("OK")
    return 0


def list_charmaps(client: Client, _options: argparse.Namespace) -> int:
    """Prints each charmap of the system, and whether the server takes it."""
    known = dict(names.charmaps())
    for file in charmaps.listed():
        try:
            charmap = client.upload(file)
            also = " ".join(name for name in known.get(file, []) if name != file)
            print(f"{file}: {charmap.mappings} mappings" + (f", also {also}" if also else ""))
        except CharmapRefused as error:
            print(f"{file}: refused, " + (f"line {error.line}: {error.why}" if error.line else error.why))
    return 0


def parser() -> argparse.ArgumentParser:
    """Returns the parser of the command line."""
    top = argparse.ArgumentParser(prog="python3 -m iconvd", description="Client of iconvd, a character set conversion service.")
    top.add_argument("--server", metavar="WHERE", help="exec:COMMAND, unix:PATH or tcp:HOST:PORT (default: $ICONVD, else exec:iconvd pipe)")
    top.add_argument("--timeout", type=float, metavar="SECONDS", help="how long a reply may take (default: $ICONVD_TIMEOUT, else 10)")
    commands = top.add_subparsers(dest="command", required=True)
    command = commands.add_parser("convert", help="convert a file or standard input")
    command.add_argument("-f", "--from-code", required=True, metavar="FROM")
    command.add_argument("-t", "--to-code", required=True, metavar="TO")
    command.add_argument("--errors", default="strict", help="an error handler of Python's, such as replace or ignore (default: strict)")
    command.add_argument("file", nargs="?", metavar="FILE")
    command.set_defaults(run=convert)
    commands.add_parser("ping", help="ask the server for a reply").set_defaults(run=ping)
    commands.add_parser("charmaps", help="list the system's charmaps that the server takes").set_defaults(run=list_charmaps)
    return top


def main(arguments: Optional[List[str]] = None) -> int:
    """Runs the command and returns the exit status: 0 for success, 1 for a fault, 2 for a wrong command line."""
    options = parser().parse_args(arguments)
    try:
        with Client(options.server, options.timeout) as client:
            status: int = options.run(client, options)
            return status
    except BrokenPipeError:
        return 1
    except (IconvdError, UnicodeError, LookupError, OSError, ValueError) as error:
        print(f"iconvd: {error}", file=sys.stderr)
        return 1


if __name__ == "__main__":
    sys.exit(main())
