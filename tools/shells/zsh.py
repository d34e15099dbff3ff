"""The completion of a program for zsh."""
from __future__ import annotations

import re

from shells.table import Context, Program, Word

HELPERS = """\
# Words that begin with one of some prefixes; after unix: a file.
{function}_prefix() {{
    if compset -P unix:; then
        _files
    else
        compadd -S '' "$@"
    fi
}}

# Some words after commas.
{function}_list() {{
    compset -P '*,'
    compadd -S '' "$@"
}}

# The names of encodings.
{function}_names() {{
    compadd "$@" - ${{(f)"$(_call_program names iconvd-convert --list 2> /dev/null)"}}
}}

# A file, or one of some words.
{function}_file() {{
    compadd "$@"
    _files
}}
"""
COMMANDS = """\
    local curcontext=$curcontext state line ret=1
    typeset -A opt_args
    local -a commands=(
{commands}
    )
    _arguments -C \\
        {options} \\
        '1:command:->command' \\
        '*::argument:->argument' && ret=0
    case $state in
        (command) _describe -t commands command commands && ret=0 ;;
        (argument)
            curcontext=${{curcontext%:*:*}}:{name}-$words[1]:
            case $words[1] in
{cases}
            esac
            ;;
    esac
    return ret
"""
TAIL = """\
if [[ $funcstack[1] == {function} ]]; then
    {function} "$@"
else
    compdef {function} {name}
fi
"""


def quoted(text: str) -> str:
    return "'" + text.replace("'", "'\\''") + "'"


def escaped(text: str) -> str:
    """A text as a part of what _arguments takes."""
    return re.sub(r"([\\:\[\]])", r"\\\1", text)


def action_of(word: Word, function: str) -> str:
    """How the values of a word are found."""
    offered = " ".join(escaped(value) for value in word.offered())
    if word.kind == "file":
        return f"{function}_file {offered}" if offered else "_files"
    if word.kind in ("prefix", "list", "names"):
        return f"{function}_{word.kind} {offered}".rstrip()
    return f"({offered})" if offered else " "


def message_of(word: Word) -> str:
    return escaped(f"{word.name} {word.values[0]}" if word.kind == "number" and word.values else word.name)


def option_of(option: Word, function: str) -> str:
    """An option as _arguments takes it."""
    value = "" if option.kind == "flag" else f":{message_of(option)}:{action_of(option, function)}"
    said = quoted(f"[{escaped(option.description)}]{value}")
    if option.kind == "flag":
        forms = list(option.forms)
    else:
        forms = [f"{form}=" if form.startswith("--") else f"{form}+" for form in option.forms]
    if len(forms) == 1:
        return forms[0] + said
    return f"{quoted('(' + ' '.join(option.forms) + ')')}{{{','.join(forms)}}}{said}"


def arguments_of(context: Context, function: str) -> list[str]:
    """The options and arguments as _arguments takes them."""
    found = [option_of(option, function) for option in context.options]
    for number, argument in enumerate(context.arguments, 1):
        place = "*" if argument.is_repeated else str(number)
        found.append(quoted(f"{place}:{message_of(argument)}:{action_of(argument, function)}"))
    return found


def body_of(program: Program, function: str) -> str:
    """The body of the function that completes."""
    first, *others = program.contexts
    if not program.commands:
        return "    _arguments -s \\\n        " + " \\\n        ".join(arguments_of(first, function)) + "\n"
    commands = "\n".join(f"        {quoted(f'{it.forms[0]}:{escaped(it.description)}')}" for it in program.commands)
    cases = []
    for context in others:
        arguments = " \\\n                        ".join(arguments_of(context, function))
        cases.append(f"                ({context.command})\n                    _arguments \\\n                        {arguments} && ret=0\n"
                     "                    ;;")
    options = " \\\n        ".join(option_of(it, function) for it in first.options)
    return COMMANDS.format(name=program.name, commands=commands, options=options, cases="\n".join(cases))


def completion(program: Program) -> str:
    """The file that zsh reads."""
    function = f"_{program.name}"
    head = f"#compdef {program.name}\n# zsh completion of {program.name}(1), made by tools/completions from contrib/completions/options.tsv.\n\n"
    text = head + HELPERS.format(function=function) + f"\n{function}() {{\n{body_of(program, function)}}}\n\n"
    return text + TAIL.format(function=function, name=program.name)
