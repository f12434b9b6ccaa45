#!/usr/bin/env python3
"""Counts what a reader must believe: the definitions that the steps' promises, the three demands and what is said of the gather's places,
of old batches and of files that are written and read name, directly or through others.
A line of definitions is one that is no comment, no import and not blank. Prints the files and the sums; tests/docs.py holds
docs/THEOREMS.md and README to them."""

import pathlib
import re

ROOT = pathlib.Path(__file__).resolve().parent.parent
PROMISES = [("setup", "Setup"), ("session", "Steps"), ("answer", "Answer"), ("filereader", "Reading"), ("filewriter", "Write"), ("host", "File")]
DEMANDS = [("theorems", "Demand1"), ("theorems", "Demand2"), ("theorems", "Demand3")]
NOTES = [("rows", "Place"), ("theorems", "OldBatches"), ("filewriter", "RoundTrip")]
# a file of specs/ that cites proofs has laws, which stand there since an impl's ghost members may name specs/ alone
CITES = re.compile(r"^use [\w.]+\.proofs\.", re.M)
# std has the words of the language, and what `declared` holds is made from the structs and enums of src/
IMPORT = re.compile(r"^use Rattle\.(?!std\.)(\w+)\.specs\.(?!declared)(\w+)", re.M)


def definitions(path):
    lines = [line.strip() for line in path.read_text().splitlines()]
    return sum(1 for line in lines if line and not line.startswith(("--", "//", "use ", "ghost use ")))


def believed():
    """Each file that is reached, with its lines of definitions."""
    found, todo = {}, PROMISES + DEMANDS + NOTES
    while todo:
        crate, name = todo.pop(0)
        path = ROOT / f"crates/{crate}/specs/{name}.antt"
        key = str(path.relative_to(ROOT))
        if key not in found:
            found[key] = definitions(path)
            todo = todo + IMPORT.findall(path.read_text())
    return found


def library():
    """The crates that the exported functions are built of."""
    lines = [line.split(":") for line in (ROOT / "crates.txt").read_text().splitlines() if ":" in line]
    needs = {kind.split()[0]: below.split() for kind, below in lines}
    found, todo = [], ["host_c"]
    while todo:
        crate = todo.pop()
        if crate in needs and crate not in found:
            found.append(crate)
            todo += needs[crate]
    return sorted(found)


def total(pattern, crates):
    return sum(definitions(path) for crate in crates for path in (ROOT / "crates" / crate).glob(pattern))


def sums():
    """In the documents' words: what is believed, and what the prover holds to it."""
    proved, lines = library() + ["filereader", "errors", "theorems"], sum(believed().values())
    specs = [path for crate in proved for path in (ROOT / "crates" / crate).glob("specs/*.antt")]
    laws = sum(definitions(path) for path in specs if CITES.search(path.read_text()))
    return {
        "files": len(believed()),
        "lines of definitions": lines,
        "lines of code": total("src/*.rt", proved),
        "lines of laws and proofs": total("proofs/**/*.antt", proved) + laws,
        "lines of layouts and cases": total("specs/*.antt", proved) - laws - lines,
        "wrong edits": len(list(ROOT.glob("crates/*/must-fail/*.edit"))),
    }


if __name__ == "__main__":
    for name, lines in believed().items():
        print(f"{lines:6} {name}")
    for name, lines in sums().items():
        print(f"{lines:6} {name}")
