#!/usr/bin/env python3
"""Brings this repository's own definitions and lemmas to the spelling of today's Rattle.

usage: python3 tools/respell.py [FOLDER]

Run once, after the toolchain's own upgrade of the surface, at the top of the repository (or of FOLDER); then `rt fmt` in each crate.
respelled.tsv, beside this file, has each name and its new spelling: words in snake case; a name that is then also a definition's gets
_lem where it is a lemma's. respelled_before.tsv has the names that the upgrade itself respelled, but in the edits and documents.
Rewritten are definitions, clauses, proofs and comments, the must-fail edits, and names between backquotes in README.md and docs/.
Names of functions in src/ and texts between quotation marks stay.
"""

import os
import re
import sys

HERE = os.path.dirname(os.path.realpath(__file__))
PART = re.compile(r"[^\s(){}\[\];,.`\"]+")
TEXT = re.compile(r'"(?:[^"\\\n]|\\.)*"')
# What the toolchain's upgrade does in definitions, for the edits, which it leaves as they are.
EDITS = [
    (re.compile(r"Rattle·(\w+)·(?:specs|proofs)\.(specs|proofs)\."), r"Rattle.\1.\2."),
    (re.compile(r"Rattle·(\w+)\.(specs|proofs)\."), r"Rattle.\1.\2."),
    (re.compile(r"(?<![\w◌])_(&&|\|\||∷|\+\+|\*|\+|-|≡)_(?!\w)"), r"◌\1◌"),
    (re.compile(r"(?<=[\w)]) \.(?=[a-z])"), "."),
]
LIBRARY = {"natAbs": "nat_abs", "getD": "get_or", "withSign": "with_sign", "eqb": "eqb"}


def table(name):
    with open(os.path.join(HERE, name), encoding="utf-8") as f:
        return dict(line.rstrip("\n").split("\t") for line in f if line.strip())


def parts(text, names):
    return PART.sub(lambda m: names.get(m.group(0), m.group(0)), text)


def outside(text, names, within):
    """parts, but not within the matches of `within`."""
    out, at = [], 0
    for m in within.finditer(text):
        out += [parts(text[at : m.start()], names), m.group(0)]
        at = m.end()
    return "".join(out) + parts(text[at:], names)


def quoted(text, names):
    return re.sub(r"`[^`\n]*`", lambda m: parts(m.group(0), names), text)


def edit(text, names):
    lines = []
    for line in text.splitlines(keepends=True):
        if line.startswith(("old:", "new:")):
            for pattern, new in EDITS:
                line = pattern.sub(new, line)
            line = outside(line, names | LIBRARY, TEXT)
        lines.append(line)
    return "".join(lines)


def files(root):
    for folder, dirs, found in os.walk(root):
        dirs[:] = sorted(d for d in dirs if d not in (".git", "out", "target", "tools"))
        for f in sorted(found):
            yield os.path.join(folder, f)


def main(argv):
    root = argv[0] if argv else "."
    names = table("respelled.tsv")
    before = table("respelled_before.tsv") | names
    for path in files(root):
        if not path.endswith((".antt", ".rt", ".edit", ".md")):
            continue
        with open(path, encoding="utf-8") as f:
            old = f.read()
        if path.endswith(".edit"):
            new = edit(old, before)
        elif path.endswith(".md"):
            new = quoted(old, before)
        else:
            new = outside(old, names, TEXT)
        if new != old:
            with open(path, "w", encoding="utf-8") as f:
                f.write(new)


if __name__ == "__main__":
    main(sys.argv[1:])
