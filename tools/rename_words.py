#!/usr/bin/env python3
"""Brings the repository's own definitions and lemmas to snake case, by the table renamed.tsv beside this file.

usage: python3 tools/rename_words.py [FOLDER]     FOLDER: the top of the repository, else the current folder

Definitions and fields lose their humps and dashes. A lemma keeps a dash that joins the names of two definitions. One that would have a
definition's name ends in _lem. Names of functions in src/, strings, and the names of Rattle's own and its library keep their spelling.
"""

import os
import re
import sys

HERE = os.path.dirname(os.path.realpath(__file__))
# a string, a path into the proof of a function, or a word
WORD = re.compile(r'"[^"\n]*"|Rattle\.\w+\.proofs\.[a-z_+][\w+.]*\.(?:Statement|Tie|Lts|Goals|Given)\b|[^\s(){}\[\],;."`]+')
IMPORT = re.compile(r"(?m)^\s*(?:ghost |pub )*use ([\w.]+)\.\{([^}]*)\}")


def table():
    with open(os.path.join(HERE, "renamed.tsv"), encoding="utf-8") as f:
        return dict(line.rstrip("\n").split("\t") for line in f)


def of_library(text, crates):
    """The names that a file imports from elsewhere than the repository's crates."""
    found = set()
    for path, names in IMPORT.findall(text):
        parts = path.split(".")
        if parts[0] != "Rattle" or parts[1] not in crates:
            found |= {n.strip() for n in names.split(",")}
    return found


def turned(text, names, crates):
    kept = of_library(text, crates)
    return WORD.sub(lambda m: m.group(0) if m.group(0) in kept else names.get(m.group(0), m.group(0)), text)


def main(argv):
    root = argv[0] if argv else "."
    crates = set(os.listdir(os.path.join(root, "crates")))
    names = table()
    marked = {a: b for a, b in names.items() if re.search(r"[A-Z-]", a)}
    for folder, dirs, files in os.walk(os.path.join(root, "crates")):
        dirs[:] = [d for d in dirs if d != "out"]
        for f in files:
            if f.endswith((".antt", ".rt")):
                path = os.path.join(folder, f)
                with open(path, encoding="utf-8") as it:
                    old = it.read()
                new = turned(old, marked if f.endswith(".rt") else names, crates)
                if new != old:
                    with open(path, "w", encoding="utf-8") as it:
                        it.write(new)


if __name__ == "__main__":
    main(sys.argv[1:])
