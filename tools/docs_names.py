#!/usr/bin/env python3
"""Turns the names of specs/ and proofs/ that stand in backquotes in the pages, by tools/names.tsv and what port.py turned.

usage: tools/docs_names.py FILE..
"""
import os
import re
import sys

HERE = os.path.dirname(os.path.realpath(__file__))


def names():
    with open(os.path.join(HERE, "names.tsv"), encoding="utf-8") as f:
        return dict(line.rstrip("\n").split("\t") for line in f)


def declared():
    """Every word of the antt files: a name that port.py turned is one of these in its new spelling."""
    found = set()
    for folder, dirs, files in os.walk("crates"):
        dirs[:] = [d for d in dirs if d != "out"]
        for name in files:
            if name.endswith(".antt"):
                with open(os.path.join(folder, name), encoding="utf-8") as f:
                    found.update(re.findall(r"[^\s(){}\[\];,\"`.@|]+", f.read()))
    return found


def snake(word):
    return re.sub(r"(?<=[a-z0-9])([A-Z])", lambda m: "_" + m.group(1).lower(), word.replace("-", "_"))


def main(files):
    table, known = names(), declared()

    def word(m):
        w = m.group(0)
        hole = re.fullmatch(r"_([^_]+)_", w)
        if hole and f"◌{hole.group(1)}◌" in known:
            return f"◌{hole.group(1)}◌"
        if w in table:
            return table[w]
        if w not in known and re.match(r"[a-z]", w) and snake(w) in known:
            return snake(w)
        return w

    for path in files:
        with open(path, encoding="utf-8") as f:
            old = f.read()
        new = re.sub(r"`[^`\n]+`", lambda m: re.sub(r"[^\s(){}\[\];,\"`.@|]+", word, m.group(0)), old)
        if new != old:
            with open(path, "w", encoding="utf-8") as f:
                f.write(new)


if __name__ == "__main__":
    main(sys.argv[1:])
