#!/usr/bin/env python3
"""Makes a checkout in the older Rattle's spelling fit for port.py, which takes one alias of a proof for today's spelling and then leaves its older steps out.

usage: tools/before_port.py        at the top of such a checkout; commit what it changed, then run port.py and tools/after_port.py
"""
import re

APPEND = "crates/change_rows/proofs/append/Proof.antt"
with open(APPEND, encoding="utf-8") as f:
    text = f.read()
text = text.replace("proofs.row_of as row_of\n", "proofs.row_of as rowOf\n")
text = re.sub(r"(?<![\w·.#])row_of\.(?=signature|spec|ended|clauses)", "rowOf.", text)
with open(APPEND, "w", encoding="utf-8") as f:
    f.write(text)
