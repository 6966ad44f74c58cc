#!/usr/bin/env python3
"""Moves files of laws from specs/ to proofs/: an edit of a definition is then refused by a law, where today's check reads it as bad otherwise.

usage: tools/laws_move.py        at the top of a checkout in which tools/after_port.py has run, once
"""
import os
import re
import subprocess

PAPER = "paper_expressions paper_tokens paper_grammar paper_guideline paper_rows paper_engine paper_calls".split()
# the crates of code whose edits change a definition that these laws are about
MOVES = {crate: ["Laws"] for crate in PAPER} | {
    "parts": ["OneTree"],
    "row_names": ["NameLaw", "AttributeLaw"],
    "plan_told": "ListLaws RowLaws TaskLaws SourceLaws ConditionLaws AssignmentLaws WaitLaws NamedLaws PlannedLaws".split(),
    "typer": ["TypedLaws", "FittingLaws"],
}


def read(path):
    if not os.path.exists(path):
        return ""
    with open(path, encoding="utf-8") as f:
        return f.read()


def write(path, text):
    with open(path, "w", encoding="utf-8") as f:
        f.write(text)


def move(crate, modules):
    """Moves the modules, a folder of one with it, and declares them in the other library."""
    specs, proofs = f"crates/{crate}/specs", f"crates/{crate}/proofs"
    os.makedirs(proofs, exist_ok=True)
    for module in modules:
        for name in (module, f"{module}.antt"):
            if os.path.exists(f"{specs}/{name}"):
                subprocess.run(["git", "mv", f"{specs}/{name}", f"{proofs}/{name}"], check=True)
        line = f"pub mod {module}\n"
        write(f"{specs}/Lib.antt", read(f"{specs}/Lib.antt").replace(line, ""))
        if line not in read(f"{proofs}/Lib.antt"):
            write(f"{proofs}/Lib.antt", read(f"{proofs}/Lib.antt") + line)


def cite():
    """Turns what cites the modules that moved."""
    moved = [(re.compile(rf"\bRattle\.{crate}\.specs\.({'|'.join(modules)})\b"), rf"Rattle.{crate}.proofs.\1") for crate, modules in MOVES.items()]
    for folder, dirs, files in os.walk("crates"):
        dirs[:] = [d for d in dirs if d != "out"]
        for name in files:
            if name.endswith((".antt", ".rt", ".edit")):
                path = os.path.join(folder, name)
                old = new = read(path)
                for pattern, into in moved:
                    new = pattern.sub(into, new)
                if new != old:
                    write(path, new)


def split_allowed():
    """Gives the laws of resolution's Allowed a file of their own, since its edit changes the definitions before them."""
    path = "crates/resolution/specs/Allowed.antt"
    text = read(path)
    at = text.find("-- the test: these are the definitions")
    if at < 0:
        return
    begin = text.index("-- the functions and prefix operators")
    uses = "\n".join(line for line in text[:begin].split("\n") if line.startswith("use "))
    law = "-- Law: the choice among the allowed types that the letters of Allowed.antt say is rule 10's, for every operator and operands. By one computed test for each operator's list.\n"
    write("crates/resolution/proofs/AllowedLaws.antt", f"{law}{uses}\nuse Rattle.resolution.specs.Allowed.{{list_of}}\n\n{text[at:]}")
    head = "-- The allowed types of each operator as letters. Definitions only; their law is in proofs/AllowedLaws.antt.\n"
    needs = "use Rattle.std.specs.Prelude.{cond, [], ℕ, List, eqb}\nuse Rattle.paper_expressions.specs.Bytes.{bytes}\n"
    write(path, f"{head}{needs}\n{text[begin:at].rstrip()}\n")
    library = "crates/resolution/proofs/Lib.antt"
    write(library, read(library) + "pub mod AllowedLaws\n")
    path = "crates/typer/specs/Compound.antt"
    both = "use Rattle.resolution.specs.Allowed.{list_of}\nuse Rattle.resolution.proofs.AllowedLaws.{applied, unapplied}"
    write(path, read(path).replace("use Rattle.resolution.specs.Allowed.{list_of, applied, unapplied}", both))


if __name__ == "__main__":
    for crate, modules in MOVES.items():
        move(crate, modules)
    cite()
    split_allowed()
