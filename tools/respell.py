#!/usr/bin/env python3
"""Spells the definitions and lemmas that this repository declares in today's way, in every crate.

usage: python3 tools/respell.py        at the top of the repository, once, after the kit's port.py

A name that a file of specs/ or proofs/ declares and that has a dash is turned: types and other capitalised names to camel case
(Refusal-keeps: RefusalKeeps), all other names to snake case (line-lives: line_lives). A dash stays behind a first part that is a
word of the library, as in length-written, and in names that the toolchain makes (goals of proofs). Items of src/, strings, inputs
and outputs keep their names; of a source file only clauses, ghost items and `ghost use` lines are turned. Comments stay.
Prints how many names were turned, and names that fall together.
"""

import collections
import glob
import re
import sys

WORD = r"[^\s(){}.;,@\"«»]+"
DASHED = re.compile(r"[A-Za-z0-9_]+(-[A-Za-z0-9_']+)+")
# Words of the library that a lemma's name begins with: what follows is joined by a dash.
JOINED = {"length": "length", "getD": "get_or", "get_or": "get_or", "take": "take", "drop": "drop", "map": "map", "filter": "filter"}
QUIET = re.compile(r'"(?:[^"\\\n]|\\.)*"|--[^\n]*|//[^\n]*')
DECLARED = re.compile(r"(?m)^[ \t]*(?:(?:unfoldable|abbrev|pub|data|record) )*(" + WORD + r")(?: *(?:\([^()]*\)|\{[^{}]*\}))* *:(?![:=])([^\n]*)")
LOCAL = re.compile(r"(?:\blet|\bin|[({]) *((?:" + WORD + r" +)*" + WORD + r") *:(?![:=])")
BOUND = re.compile(r"λ ((?:" + WORD + r" *)+)\.")
KIND = re.compile(r"(?:data|record) (" + WORD + ")")
ALIAS = re.compile(r" as (" + WORD + ")")


def read(path):
    with open(path, encoding="utf-8") as f:
        return f.read()


def bare(text):
    return QUIET.sub(" ", text)


def declared(paths):
    """The dashed names that the files declare, without the goals that the toolchain makes."""
    names, goals = set(), set()
    for path in paths:
        text = bare(read(path))
        if path.endswith(".antt"):
            for m in DECLARED.finditer(text):
                (goals if m.group(2).strip().startswith("goal.") else names).add(m.group(1))
            for pattern in (LOCAL, BOUND, KIND):
                for m in pattern.finditer(text):
                    names.update(m.group(1).split())
        for m in ALIAS.finditer(text):
            names.add(m.group(1))
    return {n for n in names - goals if DASHED.fullmatch(n)}


def turned(name):
    parts = name.split("-")
    if parts[0] in JOINED:
        return JOINED[parts[0]] + "-" + "_".join(parts[1:])
    if name[0].isupper():
        return "".join(p[0].upper() + p[1:] for p in parts)
    return "_".join(parts)


def respell(text, table):
    """The text with each name of the table turned, outside strings and comments."""
    def word(m):
        return table.get(m.group(0), m.group(0))

    out, at = [], 0
    for quiet in QUIET.finditer(text):
        out.append(re.sub(WORD, word, text[at:quiet.start()]))
        out.append(quiet.group(0))
        at = quiet.end()
    out.append(re.sub(WORD, word, text[at:]))
    return "".join(out)


def main():
    proofs = sorted(glob.glob("crates/*/specs/**/*.antt", recursive=True) + glob.glob("crates/*/proofs/**/*.antt", recursive=True))
    sources = sorted(glob.glob("crates/*/src/**/*.rt", recursive=True))
    names = declared(proofs + sources)
    table = {n: turned(n) for n in names}
    by = collections.defaultdict(set)
    for old, new in table.items():
        by[new].add(old)
    words = set()
    for path in proofs:
        words.update(re.findall(WORD, re.sub(r"^use [^\n]*", "", bare(read(path)), flags=re.M)))
    for new, olds in sorted(by.items()):
        if len(olds) > 1 or (new in words and new not in olds):
            print(f"falls together: {', '.join(sorted(olds))} as {new}" + (", which stands already" if new in words else ""))
    changed = 0
    for path in proofs + sources:
        text = read(path)
        new = respell(text, table)
        if new != text:
            changed += 1
            with open(path, "w", encoding="utf-8") as f:
                f.write(new)
    print(f"{len(table)} names turned, in {changed} files")


if __name__ == "__main__":
    sys.exit(main())
