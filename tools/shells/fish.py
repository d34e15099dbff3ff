"""The completion of a program for fish."""
from __future__ import annotations

from shells.table import Context, Program, Word

HELPERS = """\
# Prints the command, and the number of its next argument.
function {function}_place
    set -l command {command}
    set -l place 0
    set -l is_value no
    for word in (commandline -opc)[2..]
        if test $is_value = yes
            set is_value no
        else if contains -- $word {valued}
            set is_value yes
        else if string match -q -- '-?*' $word
            continue
        else if test -z "$command"
            set command $word
        else
            set place (math $place + 1)
        end
    end
    echo "$command $place"
end

# Prints words that begin with these prefixes; after unix: files.
function {function}_prefix
    set -l token (commandline -ct | string replace -r '^--[^=]*=' '')
    if string match -q 'unix:*' -- $token
        printf 'unix:%s\\n' (__fish_complete_path (string replace unix: '' -- $token) | string replace -r '\\t.*' '')
    else
        printf '%s\\n' $argv
    end
end

complete -c {name} -f
"""


def quoted(text: str) -> str:
    return "'" + text.replace("\\", "\\\\").replace("'", "\\'") + "'"


def values_of(word: Word, function: str) -> str:
    """How the values of a word are found."""
    offered = " ".join(word.offered())
    if word.kind == "names":
        return "(iconvd-convert --list 2> /dev/null)"
    if word.kind == "prefix":
        return f"({function}_prefix {offered})"
    return f"(__fish_append , {offered})" if word.kind == "list" else offered


def words_of(word: Word, function: str) -> str:
    """What follows `complete` for the values of a word."""
    values = values_of(word, function)
    files = "-F" if word.kind == "file" else "-f"
    return f"{files} -a {quoted(values)}" if values else files


def rows_of(context: Context, program: Program, function: str) -> list[str]:
    """The calls of `complete` for a command."""
    command = context.command or ("" if program.commands else "-")
    rows = []
    for option in context.options:
        forms = " ".join(f"-l {form[2:]}" if form.startswith("--") else f"-s {form[1:]}" for form in option.forms)
        value = "" if option.kind == "flag" else f" -r {words_of(option, function)}"
        condition = quoted(f'string match -q -- "{command} *" ({function}_place)')
        rows.append(f"complete -c {program.name} -n {condition} {forms}{value} -d {quoted(option.description)}")
    for number, argument in enumerate(context.arguments):
        place = "*" if argument.is_repeated else str(number)
        condition = quoted(f'string match -q -- "{command} {place}" ({function}_place)')
        rows.append(f"complete -c {program.name} -n {condition} {words_of(argument, function)} -d {quoted(argument.description)}")
    return rows


def completion(program: Program) -> str:
    """The file that fish reads."""
    function = "__" + program.name.replace("-", "_")
    head = f"# fish completion of {program.name}(1), made by tools/completions from contrib/completions/options.tsv.\n\n"
    command = "''" if program.commands else "-"
    text = head + HELPERS.format(name=program.name, function=function, command=command, valued=" ".join(program.valued()))
    for command_word in program.commands:
        condition = quoted(f'string match -q -- " *" ({function}_place)')
        text += f"complete -c {program.name} -n {condition} -a {command_word.forms[0]} -d {quoted(command_word.description)}\n"
    for context in program.contexts:
        text += "\n".join(rows_of(context, program, function)) + "\n"
    return text
