#!/usr/bin/env python3
"""Spells the names of definitions and lemmas with underscores, as the toolchain does: foldFrom becomes fold_from, foldFrom-xor fold_from-xor.

usage: tools/spell.py            at the top of the repository, once, after the toolchain's own scripts

A name is a word of an .antt file that begins with a small letter and has a capital inside. A part of a name that begins with a capital is
the name of a type or a fact, and stays. In .rt and .edit files and in the documents only names that an .antt file has are turned: the names
of src/, of C and of the tests have no capitals. It says which names fall together.
"""

import pathlib
import re

WORD = re.compile(r"(?<![\w'.·-])(?:[^\W\d_][\w'-]*)", re.UNICODE)
HUMP = re.compile(r"(?<=[a-z0-9])(?=[A-Z])")
DOCUMENTS = ["README.md", "CONTRIBUTING.md", *map(str, pathlib.Path("docs").rglob("*.md"))]


# Lemmas that would have a definition's name.
LEMMAS = {
    "crates/rules/proofs/Fits.antt": "bodies_right",
    "crates/batchfile/proofs/Again.antt": "head_bytes",
    "crates/filewriter/proofs/RoundTrip.antt": "head_bytes",
    "crates/sha256_long/proofs/LongLaws.antt": "value_in",
}


def spelled(name):
    parts = re.split(r"([_-])", name)
    return "".join(part if part[:1].isupper() else HUMP.sub("_", part).lower() if HUMP.search(part) else part for part in parts)


def names_of(text):
    code = re.sub(r"--.*", "", text)
    return {word.strip("-") for word in re.findall(r"[^\W\d][\w'-]*", code)}


def main():
    for path, name in LEMMAS.items():
        path = pathlib.Path(path)
        if path.exists():
            path.write_text(re.sub(rf"(?<![\w'-]){name}(?![\w'-])", f"{name}_lem", path.read_text()))
    theirs = sorted(pathlib.Path("crates").rglob("*.antt"))
    names = set()
    for path in theirs:
        names |= names_of(path.read_text())
    turned = {name: spelled(name) for name in names if spelled(name) != name}
    for old, new in sorted(turned.items()):
        if new in names:
            print(f"falls together: {old} and {new}")
    word = re.compile(r"(?<![\w'-])(?:" + "|".join(re.escape(name) for name in sorted(turned, key=len, reverse=True)) + r")(?![\w'-])")
    others = [path for kind in ("*.rt", "*.edit") for path in sorted(pathlib.Path("crates").rglob(kind))]
    for path in [*theirs, *others, *map(pathlib.Path, DOCUMENTS)]:
        before = path.read_text()
        after = word.sub(lambda match: turned[match.group(0)], before)
        if after != before:
            path.write_text(after)
    print(f"turned: {len(turned)} names")


main()
