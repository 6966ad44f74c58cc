#!/usr/bin/env python3
"""Counts the places of docs/DESIGN-PASS.md in crates/*/src, point by point.

  tools/places.py           a line for each count
  tools/places.py --list K  the places of one count, by file and line, as `tools/places.py --list loops`
  tools/places.py --crates  the counts, a row for each crate
"""
import collections
import glob
import re
import sys

INTEGERS = "u8|u16|u32|u64|usize|i32|i64"


def sources():
    for name in sorted(glob.glob("crates/*/src/**/*.rt", recursive=True)):
        with open(name, encoding="utf-8") as it:
            yield name, it.read()


def line_of(text, at):
    return text.count("\n", 0, at) + 1


def blocks(text, pattern):
    """Each block in braces whose head fits the pattern: where it begins, the match, and its body."""
    for found in re.finditer(pattern, text, re.M):
        at = text.index("{", found.end() - 1)
        depth, end = 0, at
        for end in range(at, len(text)):
            depth += {"{": 1, "}": -1}.get(text[end], 0)
            if depth == 0:
                break
        yield found.start(), found, text[at + 1 : end]


def enums(text):
    """Own enums of the shape of Option or Result: some variant holds nothing or a refusal, another holds what is found."""
    for at, found, body in blocks(text, r"^\s*(?:pub )?enum (\w+)"):
        body = re.sub(r"//.*", "", body)
        variants = re.findall(r"(\w+)\s*(\([^)]*\))?\s*,", body)
        held = [v for v in variants if v[1]]
        if held and len(variants) <= 4 and len(held) < len(variants) or {v[0] for v in variants} & {"Refused", "Broken", "Failed"}:
            yield at, found.group(1)


def flags(text):
    """A struct with a flag among its fields."""
    for at, found, body in blocks(text, r"^\s*(?:pub )?struct (\w+)[^;{]*\{"):
        for field in re.findall(r"(\w+): bool\b", re.sub(r"//.*", "", body)):
            yield at, f"{found.group(1)}.{field}"


def codes(text):
    """Numbers for kinds: a type with no field, with two or more constants that are integers."""
    units = set(re.findall(r"^\s*(?:pub )?struct (\w+)\s*(?:;|\{\s*\})", text, re.M))
    for at, found, body in blocks(text, r"^\s*impl (\w+) "):
        numbers = re.findall(rf"const \w+: (?:{INTEGERS})\b", body)
        if found.group(1) in units and len(numbers) > 1:
            yield at, f"{found.group(1)} ({len(numbers)})"


def sentinels(text):
    """A function whose comment says which number stands for none."""
    for found in re.finditer(r"((?:^\s*//.*\n)+)\s*(?:#\[.*\]\n\s*)*(?:pub )?(?:const )?fn (\w+)", text, re.M):
        said = found.group(1).lower()
        if re.search(r"(if|where) (there is |it is |it has )?no(ne|t found)?\b|or how many|or the text's length|for none|; \S+ (for|where|if) none", said):
            tail = text[found.end() : found.end() + 600].split("{")[0].split("requires")[0].split("ensures")[0]
            if re.search(rf"-> (?:{INTEGERS})\b", tail):
                yield found.start(), found.group(2)


def functions(text):
    for at, found, body in blocks(text, r"^\s*(?:pub )?(?:const )?fn (\w+)"):
        # (the first braces may be a clause's: the body is the last block of the item)
        rest = text[found.start() :]
        head = re.match(r"\s*(?:pub )?(?:const )?fn \w+[^;]*?\n?\{\n", rest, re.S)
        yield at, found.group(1), rest[: rest.find("\n}\n") if rest.find("\n}\n") > 0 else len(rest)]


def shape(source):
    """A function's text with its names, numbers and texts numbered in order: two of one shape are twins."""
    source = re.sub(r"//.*", "", source)
    source = re.sub(r"^\s*(requires|ensures)\b.*$", "", source, flags=re.M)
    words = re.findall(r"\w+|[^\w\s]", source)
    kept = {"fn", "pub", "let", "mut", "if", "else", "while", "for", "in", "loop", "return", "match", "true", "false", "as", "break", "continue"}
    numbers = {}
    return " ".join(w if w in kept or not re.match(r"\w", w) else f"n{numbers.setdefault(w, len(numbers))}" for w in words)


def twins():
    """Functions of at least six lines of one shape: all but the first of each group."""
    seen = collections.defaultdict(list)
    for name, text in sources():
        for at, title, source in functions(text):
            if source.count("\n") >= 6:
                seen[shape(source)].append((name, line_of(text, at), title))
    for group in seen.values():
        yield from (one[:2] + (f"{one[2]}, as {group[0][2]} of {group[0][0]}",) for one in group[1:])


GROUPS = [
    ("rows", "parts", "texts", "plan", "state"),
    ("rows", "texts", "plan"),
    ("rows", "n", "bytes"),
    ("text", "places", "lengths"),
    ("kinds", "places", "lengths"),
    ("bytes", "names", "types"),
    ("bytes", "tasks", "states"),
    ("bytes", "names", "tags", "nums"),
    ("tags", "numbers", "bytes"),
    ("x", "b", "f", "s"),
    ("s", "f", "w"),
    ("texts", "plan", "state"),
]


def together(text):
    """Functions with three or more parameters that travel together."""
    for found in re.finditer(r"^\s*(?:pub )?fn (\w+)(?:<[^>]*>)?\(([^)]*)\)", text, re.M):
        names = set(re.findall(r"(\w+): &", found.group(2))) | set(re.findall(r"(n): usize", found.group(2)))
        fits = [g for g in GROUPS if set(g) <= names]
        if fits:
            yield found.start(), f"{found.group(1)}({', '.join(fits[0])})"


def lengths(text):
    """A slice with a place or a length beside it among the parameters."""
    for found in re.finditer(r"^\s*(?:pub )?fn (\w+)(?:<[^>]*>)?\(([^)]*)\)", text, re.M):
        if re.search(r"(\w+): &(?:'\w+ )?(?:mut )?\[\w+\],\s*(?:o|n|m|many|len|at|from|count|k): usize", found.group(2)):
            yield found.start(), found.group(1)


def by(pattern):
    return lambda text: ((found.start(), found.group(0).strip()) for found in re.finditer(pattern, text, re.M))


COUNTS = [
    ("1 enums of the shape of Option or Result", "enums", enums),
    ("1 flags among the fields of a struct", "flags", flags),
    ("1 types of numbers for kinds", "codes", codes),
    ("1 numbers that stand for none", "sentinels", sentinels),
    ("1 matches on numbers by name", "matches", by(r"^\s+[A-Z]\w+::[A-Z_0-9]+(?:\s*\|\s*[A-Z]\w+::[A-Z_0-9]+)*(?:\.\.=\S+)? =>")),
    ("2 functions of one shape with an earlier one", "twins", None),
    ("3 while and loop", "loops", by(r"^\s*(?:'\w+: )?(?:while|loop)\b[^\n]*")),
    ("4 returns of true and false", "returns", by(r"return (?:true|false);")),
    ("4 arms of true and false", "arms", by(r"=> (?:true|false),")),
    ("4 casts", "casts", by(rf"\bas (?:{INTEGERS})\b")),
    ("4 fields named twice", "fields", by(r"^\s+(\w+): \1,")),
    ("5 functions with parameters that travel together", "together", together),
    ("6 slices with a place or a length beside them", "lengths", lengths),
]


def places(name):
    """The places of one count: file, line, what stands there."""
    for _, key, find in COUNTS:
        if key == name:
            if find is None:
                return list(twins())
            return [(file, line_of(text, at), what) for file, text in sources() for at, what in find(text)]
    sys.exit(f"no such count: {name}")


def main(words):
    if words[:1] == ["--list"] and len(words) == 2:
        for file, line, what in places(words[1]):
            print(f"{file}:{line}: {what}")
        return
    if words == ["--crates"]:
        keys = [key for _, key, _ in COUNTS]
        rows = collections.defaultdict(collections.Counter)
        for key in keys:
            for file, _, _ in places(key):
                rows[file.split("/")[1]][key] += 1
        print("crate", *keys)
        for crate in sorted(rows):
            print(crate, *[rows[crate][key] for key in keys])
        return
    if words:
        sys.exit(__doc__)
    for title, key, _ in COUNTS:
        print(f"{len(places(key)):6} {title} (--list {key})")
    proofs = glob.glob("crates/*/proofs/**/Proof.antt", recursive=True)
    print(f"{len(proofs):6} 8 proofs that walk the code by hand (Proof.antt)")
    lines = sum(open(it, encoding="utf-8").read().count("\n") for it in glob.glob("crates/*/proofs/**/*.antt", recursive=True) if "/paper_" not in it)
    print(f"{lines:6} 8 lines of proofs beside the paper's crates")


main(sys.argv[1:])
