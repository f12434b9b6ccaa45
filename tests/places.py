#!/usr/bin/env python3
"""No number of a row or column is divided by 8, taken modulo 8, shifted or masked where rows are gathered and their pads made (paper 02,
note 2). Of crates/rows and crates/pads, contracts and comments aside: no division and no remainder stands there; shifts and masks stand in
`swap` alone, where they move the bits of two columns' words by a distance that is 1, 2 or 4 units of 1 or 8, which are written out; and what they
call of other crates or bring in by name is listed here, since a callee may divide as words::bit does. The same is tried on copies with a planted fault, which must be seen."""

import pathlib
import re
import sys

ROOT = pathlib.Path(__file__).resolve().parent.parent
FILES = [ROOT / "crates/rows/src/lib.rt", ROOT / "crates/pads/src/lib.rt"]
# the lines of `swap`, in which a and b are words of columns
MOVES = ["let moved = ((a >> s) ^ b) & mask;", "first: a ^ (moved << s),"]
CALLED = {"words::load64", "words::store64", "words::store32", "words::copy_part", "words::xor_parts", "sha256_four::digest",
          "rows::block_rows"}
BROUGHT_IN = {"use std::array::from_fn;"}
# a fault, and the line of rows after which it is planted
PLANTED = ["let q = at / 8;", "let r = at % 8;", "let q = at >> 3;", "let q = at << 1;", "let r = at & 7;", "let b = words::bit(table, at);",
           "let q = 1 >> byte;", "use words::bit;"]
PLACE = "let mut from = at;"


def code(text):
    """The lines of code, without comments, contracts and what only contracts use."""
    text = re.sub(r"//.*", "", text)
    text = re.sub(r"^\s*(?:requires|ensures)(?: \w+)? \{.*\}$", "", text, flags=re.M)
    return [line.strip() for line in text.splitlines() if line.strip() and not line.startswith(("ghost use", "#!["))]


def faults(text):
    for line in code(text):
        if line not in MOVES and re.search(r"[/%]|<<|>>|[\w)\]] *&|&=", line.replace("&&", "")):
            yield line
        if line.startswith("use ") and line not in BROUGHT_IN:
            yield line
        yield from (name for name in re.findall(r"\b\w+::\w+(?=\()", line) if name not in CALLED)


found = [f"{file.relative_to(ROOT)}: {fault}" for file in FILES for fault in faults(file.read_text())]
rows = FILES[0].read_text()
if rows.count(PLACE) < 1 or not all(move in code(rows) for move in MOVES):
    found.append("rows: the lines that this test knows are not there")
unseen = [fault for fault in PLANTED if not list(faults(rows.replace(PLACE, f"{PLACE}\n    {fault}", 1)))]
found += [f"a planted fault was not seen: {fault}" for fault in unseen]
print("\n".join(found + [f"places: {sum(len(code(file.read_text())) for file in FILES)} lines looked at, {len(PLANTED)} planted faults tried"]))
sys.exit(1 if found else 0)
