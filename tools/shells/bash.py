"""The completion of a program for bash."""
from __future__ import annotations

import shlex

from shells.table import Context, Program, Word

HEAD = """\
# bash completion of {name}(1), made by tools/completions from contrib/completions/options.tsv.

{function}() {{
    local current lead='' name='' command='' option='' place=0 values='' files='' words=() word at

    # bash cuts words at = and :, and replaces what follows the last of them.
    for ((at = 1; at <= COMP_CWORD; at++)); do
        word=${{COMP_WORDS[at]}}
        if ((${{#words[@]}})) && [[ $word == [=:]* || ${{words[-1]}} == *[=:] ]]; then
            words[-1]+=$word
        else
            words+=("$word")
        fi
    done
    current=${{words[-1]}}
    unset 'words[-1]'

    for word in "${{words[@]}}"; do
        if [[ $option ]]; then
            option=''
            continue
        fi
        case $word in
            {valued}) option=$word ;;
            -?*) ;;
            *) {counted} ;;
        esac
    done
    if [[ ! $option && $current == --*=* ]]; then
        option=${{current%%=*}} current=${{current#*=}}
        [[ $COMP_WORDBREAKS == *=* ]] || name=$option=
    fi

    COMPREPLY=()
    if [[ ! $option && $current == -?* ]]; then
        option=-
    fi
    case $command:${{option:-$place}} in
"""
TAIL = """\
    esac
    if [[ $files ]]; then
        mapfile -t COMPREPLY < <(compgen -W "$values" -- "$current")
        compopt -o bashdefault -o default 2> /dev/null
        return
    fi
    if [[ $lead ]]; then
        lead=''
        [[ $current != *,* ]] || lead=${{current%,*}},
        current=${{current#"$lead"}}
    fi
    mapfile -t COMPREPLY < <(compgen -P "$name$lead" -W "$values" -- "$current")
    lead+=$current
    if [[ $COMP_WORDBREAKS == *:* && $lead == *:* ]]; then
        COMPREPLY=("${{COMPREPLY[@]#"${{lead%"${{lead##*:}}"}}"}}")
    fi
}}

complete -F {function} {name}
"""


def values_of(word: Word) -> str:
    """The commands that offer the values of a word."""
    quoted = shlex.quote(" ".join(word.offered()))
    if word.kind == "names":
        return "values=$(iconvd-convert --list 2> /dev/null)"
    if word.kind == "file":
        return f"files=1 values={quoted}"
    if word.kind == "list":
        return f"lead=1 values={quoted}; compopt -o nospace 2> /dev/null"
    if word.kind == "prefix":
        return f"if [[ $current == unix:* ]]; then files=1; else values={quoted}; compopt -o nospace 2> /dev/null; fi"
    return f"values={quoted}" if word.offered() else "return"


def options_of(context: Context) -> str:
    return shlex.quote(" ".join(form for option in context.options for form in option.forms if form.startswith("--") or len(option.forms) == 1))


def cases_of(program: Program, context: Context) -> dict[str, list[str]]:
    """What is offered, with the patterns of its places: a command with an option, with `-` or with the number of an argument."""
    cases: dict[str, list[str]] = {}
    for option in context.options:
        if option.kind != "flag":
            cases.setdefault(values_of(option), []).extend(f"{context.command}:{form}" for form in option.forms)
    if program.commands and not context.command:
        words = " ".join(command.forms[0] for command in program.commands)
        cases[f"values={shlex.quote(words)}"] = [f"{context.command}:0"]
    for number, argument in enumerate(context.arguments):
        place = "[0-9]*" if argument.is_repeated else str(number)
        cases.setdefault(values_of(argument), []).append(f"{context.command}:{place}")
    cases.setdefault(f"values={options_of(context)}", []).append(f"{context.command}:*")
    return cases


def completion(program: Program) -> str:
    """The file that bash reads."""
    function = "_" + program.name.replace("-", "_")
    counted = "if [[ $command ]]; then ((++place)); else command=$word; fi" if program.commands else "((++place))"
    text = HEAD.format(name=program.name, function=function, valued=" | ".join(program.valued()), counted=counted)
    for context in program.contexts:
        for values, patterns in cases_of(program, context).items():
            text += f"        {' | '.join(patterns)}) {values} ;;\n"
    return text + TAIL.format(name=program.name, function=function)
