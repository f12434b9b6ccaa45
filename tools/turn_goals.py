#!/usr/bin/env python3
"""Turns the names of goals, places and steps in proofs that walk the code, from the older toolchain's to today's.

usage: rt names FOLDER; tools/turn_goals.py FOLDER [CRATE..]       at the top of the repository, once

`rt names` writes both names of each. A proof lists its goals in the code's order, and so does `rt names`; it says where they don't fit.
"""

import json
import pathlib
import re
import sys


def plain(name):
    """A name as both toolchains have it, whichever of - and _ joins its parts, and without the word that says what it is about."""
    name = name.replace("_", "-")
    for begin, short in (("overflow-", ""), ("slice-bounds-", "part-"), ("bounds-", "")):
        if name.startswith(begin):
            return short + name[len(begin):]
    return name


def swap(text, begin, pairs):
    """Turns each whole word of the pairs that stands after `begin`."""
    if not pairs:
        return text
    words = "|".join(re.escape(old) for old in sorted(pairs, key=len, reverse=True))
    return re.sub(rf"({begin})({words})(?![\w'-])", lambda m: m.group(1) + pairs[m.group(2)], text)


def both(pairs, old, new):
    for form in {old, old.replace("_", "-"), re.sub(r"(?<=[^-])_(?=[^-])", "-", old)}:
        if form and form != new:
            pairs.setdefault(form, new)


def turn(path, function, names):
    text = path.read_text()
    needs = [(m.group(1), m.group(2)) for m in re.finditer(r"(\w[\w-]*)\.Need-([\w'-]+)", text)]
    listed = names["needs"]
    goals = {}
    fits = len(needs) == len(listed)
    by_name = {plain(old): new for old, new in listed}
    for at, (_, found) in enumerate(needs):
        if plain(found) in by_name:
            goals[found] = by_name[plain(found)]
            if fits and listed[at][1] != goals[found]:
                print(f"look: {path}: {found} stands at another place")
        elif fits:
            goals[found] = listed[at][1]
            print(f"look: {path}: {found} is taken for {listed[at][1]}")
        else:
            print(f"left: {path}: {found}")
    text = swap(text, r"\.Need-", goals)
    loops = {}
    for (old, new), _ in names["loops"]:
        both(loops, old, new)
    text = swap(text, r"\.(?:invariant|decreases)-", loops)
    places, steps = {}, {}
    for place, new in zip(names["places"], names["places_by_name"]):
        both(places, place[0], new)
        both(steps, place[2][0], place[2][1])
    text = swap(text, r"(?<![\w'])(?:tie|lts|view|[a-z]+-lts)\.", places)
    # A step may have the name of a variable, which other records have too.
    ours = {old: new for old, new in steps.items() if re.fullmatch(rf"{re.escape(old.rstrip('0123456789'))}.*-\d+", new)}
    text = swap(text, r"(?<![\w'])c\.(?:before\.)*", ours)
    text = swap(text, r"\.", {old: new for old, new in steps.items() if old not in ours})
    text = swap(text, r"\.", {"good": "well_formed", "well-formed": "well_formed", "pre": "requires", "inv": "invariant"})
    dashed = function.replace("_", "-")
    text = re.sub(rf"^(pub )?{re.escape(dashed)}[-_]spec(?![\w'-])", lambda m: f"{m.group(1) or ''}{function}_spec", text, flags=re.M)
    path.write_text(text)


def main():
    folder, wanted = pathlib.Path(sys.argv[1]), sys.argv[2:]
    for listed in sorted(folder.glob("crates/*/names.json")):
        crate = listed.parent.name
        if wanted and crate not in wanted:
            continue
        for module, names in json.loads(listed.read_text()).items():
            found = re.fullmatch(rf"Rattle-{crate}-proofs\.(.*)\.Lts", module)
            path = pathlib.Path("crates", crate, "proofs", *found.group(1).split("."), "Proof.antt") if found else None
            if path and path.exists():
                turn(path, path.parent.name.lstrip("+"), names)


main()
