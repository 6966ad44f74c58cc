#!/usr/bin/env python3
"""Gives the definitions and lemmas of specs/ and proofs/ the spelling of today's Rattle: words in snake case, types in camel case.

usage: tools/after_port.py        at the top of a checkout in which port.py has run, once

names.tsv has each old name with its new one. Two names that would fall together keep apart: one of them keeps its dash, or gets `_fn`.
Functions of src/, exported names, strings and comments stay as they are. A name that a file has from the library stays there too.
"""
import os
import re

HERE = os.path.dirname(os.path.realpath(__file__))
TOKEN = re.compile(r"""--[^\n]*|//[^\n]*|b?"(?:[^"\\]|\\.)*"|[^\s(){}\[\];,"`.@|]+""")
# what a library has: its modules begin so, or with the name of a crate that is not of this repository
LIBRARY = re.compile(r"use\s+((?:Rattle\.(\w+)|mathlib|Prim|lib|borrow|native|base|types|denote|contract|mir)\b[\w.·]*)\.\{([^}]*)\}")


def names():
    with open(os.path.join(HERE, "names.tsv"), encoding="utf-8") as f:
        return dict(line.rstrip("\n").split("\t") for line in f)


def texts():
    for folder, dirs, files in os.walk("crates"):
        dirs[:] = [d for d in dirs if d != "out"]
        for name in files:
            if name.endswith((".antt", ".rt")):
                yield os.path.join(folder, name)


def from_library(text, crates):
    found = set()
    for m in LIBRARY.finditer(text):
        if m.group(2) not in crates:
            found.update(n.split(" as ")[0].strip() for n in m.group(3).split(","))
    return found


def renamed(text, table, crates, code):
    kept = from_library(text, crates)

    def one(m):
        word = m.group(0)
        if word.startswith("//" if code else "--") or word.startswith(('"', 'b"')) or word in kept:
            return word
        return table.get(word, word)

    return TOKEN.sub(one, text)


def main():
    table = names()
    crates = set(os.listdir("crates"))
    for path in texts():
        with open(path, encoding="utf-8") as f:
            old = f.read()
        new = renamed(old, table, crates, path.endswith(".rt"))
        if new != old:
            with open(path, "w", encoding="utf-8") as f:
                f.write(new)


if __name__ == "__main__":
    main()
