#!/usr/bin/env python3
"""list.py: lists lemmas that are stated more than once, that std has, or that nothing names. Look at each: it may be needed.

Only the first line of each statement is compared, up to the names of its variables. Two files may have the same words over different
definitions, and lemmas that bind variables only to recurse on them often look alike. A proof's search can find a lemma that nothing
names if its file is cited, so such a lemma is dead only if the crate is proved without it. The status is 0.
"""
import glob
import os
import re
import subprocess

TOP = os.path.dirname(os.path.dirname(os.path.dirname(os.path.abspath(__file__))))
NAME = r"[A-Za-z0-9_'\-]+"
LEMMA = re.compile(rf"^(?:pub )?({NAME}) : (.*)$", re.M)
NO_LEMMAS = ("Answers.antt", "Invariants.antt", "Examples.antt")
SHORT = 12  # statements of fewer characters are not compared


def read(path):
    with open(path, encoding="utf-8") as opened:
        return opened.read()


def form(statement):
    """A statement with its variables numbered, one name to a binder, and without arrows between binders."""
    bound = []
    for names in re.findall(r"[({]([^(){}:]+) : ", statement):
        bound += [name for name in names.split() if name not in bound]
    words = re.findall(rf"{NAME}|[^\sA-Za-z0-9_'\-]", statement.replace("{ℓ}", ""))
    said = " ".join(f"v{bound.index(word)}" if word in bound else word for word in words)
    said = re.sub(r"[({] ((?:v\d+ )+): ([^(){}]*?) [)}]",
                  lambda group: " ".join(f"( {name} : {group[2]} )" for name in group[1].split()), said)
    return said.replace(") → ", ") ")


def stated(paths):
    """Each form of the lemmas of some files, with the places where it is stated."""
    found = {}
    for path in paths:
        for name, statement in LEMMA.findall(read(path)):
            if len(statement) >= SHORT:
                found.setdefault(form(statement), []).append((name, path))
    return found


def std_pages():
    """The pages of the toolchain that list std's lemmas."""
    guide = subprocess.run(["rt", "doc"], stdout=subprocess.PIPE, text=True, check=True).stdout.strip()
    return glob.glob(os.path.join(os.path.dirname(guide), "rattle/std/lemmas/**/*.md"), recursive=True)


def nameless(lemmas, sources):
    """The lemmas whose names occur only where they are stated and defined."""
    counts = {}
    for text in sources.values():
        for word in re.findall(NAME, text):
            counts[word] = counts.get(word, 0) + 1
    for path in lemmas:
        for name, _ in LEMMA.findall(sources[path]):
            own = len(re.findall(rf"^(?:pub )?{re.escape(name)}(?![A-Za-z0-9_'\-])", sources[path], re.M))
            if counts[name] <= own:
                yield name, path


def main():
    os.chdir(os.path.join(TOP, "crates"))
    paths = [path for kind in ("antt", "rt") for path in glob.glob(f"*/*/**/*.{kind}", recursive=True) if "/out/" not in path]
    lemmas = sorted(path for path in paths if "/proofs/" in path and not path.endswith(NO_LEMMAS))
    ours, std = stated(lemmas), stated(std_pages())
    for said, places in ours.items():
        if len(places) > 1:
            print("twice:", ", ".join(f"{name} ({path})" for name, path in places))
        if said in std:
            print("in std:", ", ".join(f"{name} ({path})" for name, path in places), "as", std[said][0][0])
    for name, path in nameless(lemmas, {path: read(path) for path in paths}):
        print(f"named nowhere: {name} ({path})")


if __name__ == "__main__":
    main()
