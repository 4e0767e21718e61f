#!/usr/bin/env python3
"""Turns the repository's own definitions and lemmas to snake case, by the table respell.tsv beside this script.

usage: python3 tools/respell.py      at the top of the repository, once, after /opt/rattle/port/port.py

A row has an old spelling, a new one and, where the name turns in some files alone, those files.
Whole words turn, in .antt, .rt and .edit files below crates/, and in code spans of .md files. Texts in quotes stay.
A lemma that would have its definition's name gets `_lem`. Behind a dot a name may be one that the checker makes of a
function's name, so there it turns to plain snake case, but for the fields that FIELDS names.
"""

import os
import re

HERE = os.path.dirname(os.path.realpath(__file__))
WORD = re.compile(r'"(?:[^"\\\n]|\\.)*"|[^\s(){}.;,@"«»`]+')
SPAN = re.compile(r"`[^`\n]+`")
FIELDS = {"flow-is", "at_slot"}


def table():
    everywhere, somewhere = {}, {}
    with open(os.path.join(HERE, "respell.tsv"), encoding="utf-8") as f:
        for line in f:
            old, new, *files = line.rstrip("\n").split("\t")
            if files:
                for file in files[0].split(" "):
                    somewhere.setdefault(file, {})[old] = new
            else:
                everywhere[old] = new
    return everywhere, somewhere


def turn(text, names):
    def word(m):
        old = m.group(0)
        new = names.get(old)
        if new is None:
            return old
        behind = m.start() > 0 and text[m.start() - 1] == "."
        if behind and new.endswith("_lem") and old not in FIELDS:
            return new[: -len("_lem")]
        return new

    return WORD.sub(word, text)


def main():
    everywhere, somewhere = table()
    for root, dirs, files in os.walk("."):
        dirs[:] = sorted(d for d in dirs if d not in (".git", "out", "target", "tools"))
        for file in sorted(files):
            path = os.path.relpath(os.path.join(root, file), ".")
            if not (file.endswith(".md") or path.startswith("crates") and file.endswith((".antt", ".rt", ".edit"))):
                continue
            with open(path, encoding="utf-8") as f:
                old = f.read()
            names = everywhere | somewhere.get(path, {})
            if file.endswith(".md"):
                new = SPAN.sub(lambda m: turn(m.group(0), names), old)
            else:
                new = turn(old, names)
            if new != old:
                with open(path, "w", encoding="utf-8") as f:
                    f.write(new)


if __name__ == "__main__":
    main()
