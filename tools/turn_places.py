#!/usr/bin/env python3
"""Turns what a call leaves from a number to the parameter's name: c.put.new.1.0 becomes c.put.new.t.

usage: rt names FOLDER; tools/turn_places.py FOLDER       at the top of the repository, after tools/turn_goals.py
"""

import json
import pathlib
import re
import sys

PLACE = re.compile(r"([\w'-]+)\.(new|auto)\.((?:1\.)*)0(?![\w'])")


def turn(path, names):
    text = path.read_text()
    calls = {new[2][1]: names["params"].get(new[3]) for new in names["places"] if new[3]}

    def named(match):
        step, kind, ones = match.groups()
        if step not in calls:
            alias = re.search(rf"let {re.escape(step)} = [^\n]*?([\w'-]+) in", text)
            step = alias.group(1) if alias else step
        if not calls.get(step):
            print(f"left: {path}: {match.group(0)}")
            return match.group(0)
        return f"{match.group(1)}.{kind}.{calls[step][len(ones) // 2]}"

    path.write_text(PLACE.sub(named, text))


def main():
    for listed in sorted(pathlib.Path(sys.argv[1]).glob("crates/*/names.json")):
        crate = listed.parent.name
        for module, names in json.loads(listed.read_text()).items():
            found = re.fullmatch(rf"Rattle-{crate}-proofs\.(.*)\.Lts", module)
            path = pathlib.Path("crates", crate, "proofs", *found.group(1).split("."), "Proof.antt") if found else None
            if path and path.exists():
                turn(path, names)


main()
