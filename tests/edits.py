#!/usr/bin/env python3
"""Each must-fail edit has a file of its crate, and finds the text that it changes there once; where it changes several texts, each in what the
earlier changes made. A new text differs from the old one. rt ci says so too, but only after it has proved all crates, and then passes: an edit
that cannot be applied only counts as bad."""

import pathlib
import sys

ROOT = pathlib.Path(__file__).resolve().parent.parent


def fault(edit):
    """What is wrong with an edit, if anything."""
    texts, path, old = {}, None, None
    for line in edit.read_text().splitlines():
        word, _, text = line.partition(": ")
        if word == "file":
            path = edit.parent.parent / text
            if text.split("/")[0] not in ("src", "specs", "proofs") or not path.is_file():
                return "names no file of its crate"
            texts.setdefault(path, path.read_text())
        elif word == "old" and path and old is None:
            old = text
            if texts[path].count(old) != 1:
                return f"finds its text {texts[path].count(old)} times"
        elif word == "new" and old:
            if text == old:
                return "changes nothing"
            texts[path], old = texts[path].replace(old, text), None
        else:
            return f"has a line that is not read: {line}"
    if old or not texts or all(path.read_text() == text for path, text in texts.items()):
        return "makes no change"
    return None


edits = sorted(path for path in ROOT.glob("crates/*/must-fail/**/*") if not path.is_dir())
faults = [f"{edit.relative_to(ROOT)} is no edit" for edit in edits if edit.suffix != ".edit" or edit.parent.name != "must-fail"]
faults += [f"{edit.relative_to(ROOT)} {fault(edit)}" for edit in edits if fault(edit)]
print("\n".join(faults + [f"edits: {len(edits)} looked at"]))
sys.exit(1 if faults or not edits else 0)
