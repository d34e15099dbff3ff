"""The table of options, contrib/completions/options.tsv, as programs with commands, options and arguments."""
from __future__ import annotations

from dataclasses import dataclass
from pathlib import Path

TABLE = Path(__file__).resolve().parents[2] / "contrib/completions/options.tsv"
KINDS = ("command", "flag", "choice", "list", "number", "prefix", "file", "names", "text")
MOST_NUMBERS = 16  # the shells offer no numbers of a longer range


@dataclass(frozen=True)
class Word:
    """An option, an argument or a command."""

    program: str
    commands: tuple[str, ...]
    forms: tuple[str, ...]
    kind: str
    values: tuple[str, ...]
    description: str

    @property
    def is_option(self) -> bool:
        return self.forms[0].startswith("-")

    @property
    def is_repeated(self) -> bool:
        return self.forms[0].endswith("..")

    @property
    def name(self) -> str:
        """The name of the value in a shell's message."""
        return self.forms[-1].lstrip("-").rstrip(".").lower()

    def offered(self) -> tuple[str, ...]:
        """The values that a shell offers."""
        if self.kind != "number" or not self.values:
            return self.values
        first, last = (int(end) for end in self.values[0].split(".."))
        return tuple(str(number) for number in range(first, last + 1)) if last - first < MOST_NUMBERS else ()


@dataclass(frozen=True)
class Context:
    """What may follow a command, or a program without commands."""

    command: str
    options: tuple[Word, ...]
    arguments: tuple[Word, ...]


@dataclass(frozen=True)
class Program:
    """A program. The first of its `contexts` is that of the program itself, with an empty command."""

    name: str
    commands: tuple[Word, ...]
    contexts: tuple[Context, ...]

    def valued(self) -> list[str]:
        """The forms of the options that have a value."""
        options = (option for context in self.contexts for option in context.options if option.kind != "flag")
        return sorted({form for option in options for form in option.forms})


def words() -> list[Word]:
    """The rows of the table."""
    found = []
    for line in TABLE.read_text(encoding="utf-8").splitlines():
        if line.startswith("#"):
            continue
        program, commands, forms, kind, values, description = line.split("\t")
        if kind not in KINDS:
            raise ValueError(f"{TABLE.name}: {forms} has the unknown kind {kind}")
        listed = () if values == "-" else tuple(values.split())
        found.append(Word(program, tuple(commands.split()), tuple(forms.split()), kind, listed, description))
    return found


def context_of(rows: list[Word], command: str) -> Context:
    """What may follow a command, or with `-` the program itself."""
    own = [row for row in rows if command in row.commands and row.kind != "command"]
    options = tuple(row for row in own if row.is_option)
    return Context(command.strip("-"), options, tuple(row for row in own if not row.is_option))


def program_of(name: str) -> Program:
    """A program of the table."""
    rows = [row for row in words() if row.program == name]
    if not rows:
        raise ValueError(f"{TABLE.name} does not have {name}")
    commands = tuple(row for row in rows if row.kind == "command")
    contexts = [context_of(rows, command) for command in ("-", *(it.forms[0] for it in commands))]
    return Program(name, commands, tuple(contexts))
