#!/usr/bin/env python3
"""Counts anew how far back each step of a walk lies: today's toolchain has other steps between.

usage: tools/turn_chains.py FOLDER CRATE FUNCTION..     after tools/turn_goals.py; FOLDER is what `rt names` wrote, FUNCTION a path, as sender/take_off

It looks at `c`, at what `let` binds to `c` or to a place before it, and at the file's own functions of a place. What it can't place it says.
"""

import json
import pathlib
import re
import sys

START = {"args", "requires", "well_formed", "ranges", "lifetimes", "utf8"}
PATH = r"((?:\.before)*)"


def fix(path, names):
    text = path.read_text()
    new = names["places_by_name"]
    of_old = {place[0]: at for at, place in enumerate(names["places"])}
    parent = [of_old.get(place[1]) for place in names["places"]]
    step = [place[2][1] for place in names["places"]]
    at_name = {name: at for at, name in enumerate(new)}
    asked = {need[1]: at_name.get(place[1]) for need, place in zip(names["needs"], names["asked_at"])}

    def back(at, wanted):
        """How far back from a place the nearest one is of which `wanted` holds."""
        n = 0
        while at is not None:
            if wanted(at):
                return n
            at, n = parent[at], n + 1
        return None

    # the file's own functions of a place
    takes, gives = {}, {}
    for m in re.finditer(r"^(?:abbrev )?(?:pub )?([\w'-]+) : (?:\(\w+ : )?tie\.([\w'-]+)", text, re.M):
        if m.group(2) in at_name:
            takes[m.group(1)] = at_name[m.group(2)]
            result = re.search(r"→ tie\.([\w'-]+)", text[m.end():].split("\n\n")[0].split("\n" + m.group(1))[0])
            gives[m.group(1)] = at_name.get(result.group(1)) if result else None

    def block(chunk):
        name = re.match(r"(?:--[^\n]*\n)*(?:abbrev )?(?:pub )?([\w'-]+) :", chunk)
        if not name:
            return chunk
        name = name.group(1)
        need = re.search(r"tie\.Need-([\w'-]+)", chunk)
        if name in takes and not need:
            variable = re.search(r"\n" + re.escape(name) + r" (\w+)", chunk)
            places = {variable.group(1) if variable else "c": takes[name]}
        elif need and need.group(1) in asked:
            places = {"c": asked[need.group(1)]}
        else:
            return chunk
        if None in places.values():
            print(f"left: {path}: {name} has no place")
            return chunk
        # what `let` binds to a place is bound to where it is reckoned from
        def bind(m):
            alias, base, call = m.group(1), m.group(3), m.group(2)
            if base not in places:
                return m.group(0)
            if call:
                if call not in takes:
                    return m.group(0)
                n = back(places[base], lambda at: at == takes[call])
                if gives.get(call) is not None:
                    places[alias] = gives[call]
                return f"let {alias} = {call} {base}{'.before' * (n or 0)} in"
            # the place that its first use without a step back tells
            at = places[base]
            use = re.search(rf"(?<![\w'.]){re.escape(alias)}\.(?!before)([\w'-]+)", body[m.end():])
            n = back(at, lambda at: parent[at] is None if use.group(1) in START else step[at] == use.group(1)) if use else 0
            for _ in range(n or 0):
                at = parent[at]
            places[alias] = at
            return f"let {alias} = {base}{'.before' * (n or 0)} in"
        head, mark, body = chunk.partition("\n" + name + " ")
        if not mark:
            return chunk
        lines = re.sub(rf"let ([\w'₀-₉]+) = (?:([\w'-]+) )?([\w'₀-₉]+){PATH}(?= in)( in)", lambda m: bind(m), body)
        if gives.get(name) is not None and re.fullmatch(rf"(\w+) =\s+\1{PATH}\s*", lines):
            variable = lines.split()[0]
            n = back(places[variable], lambda at: at == gives[name])
            if n is not None:
                return f"{head}{mark}{variable} = {variable}{'.before' * n}"
        aliases = "|".join(re.escape(a) for a in sorted(places, key=len, reverse=True))

        def path_of(m):
            base, _, field = m.groups()
            wanted = (lambda at: parent[at] is None) if field in START else (lambda at: step[at] == field)
            n = back(places[base], wanted)
            if n is None:
                print(f"left: {path}: {name}: {m.group(0)}")
                return m.group(0)
            return f"{base}{'.before' * n}.{field}"

        lines = re.sub(rf"(?<![\w'.])({aliases}){PATH}\.(?!before)([\w'-]+)", path_of, lines)

        def call_of(m):
            function, base, _ = m.groups()
            n = back(places[base], lambda at: at == takes[function])
            if n is None:
                print(f"left: {path}: {name}: {m.group(0)}")
                return m.group(0)
            return f"{function} {base}{'.before' * n}"

        if takes:
            functions = "|".join(re.escape(f) for f in sorted(takes, key=len, reverse=True))
            lines = re.sub(rf"(?<![\w'.-])({functions}) ({aliases}){PATH}(?![\w'.-])", call_of, lines)
        signature = head
        if name in takes and not need:
            signature = re.sub(rf"(?<![\w'.])(c){PATH}\.(?!before)([\w'-]+)", path_of, signature)
            if takes:
                signature = re.sub(rf"(?<![\w'.-])({functions}) (c){PATH}(?![\w'.-])", call_of, signature)
        return signature + mark + lines

    path.write_text("\n\n".join(block(chunk) for chunk in text.split("\n\n")))


def main():
    folder, crate, functions = pathlib.Path(sys.argv[1]), sys.argv[2], sys.argv[3:]
    names = json.loads((folder / "crates" / crate / "names.json").read_text())
    for function in functions:
        fix(pathlib.Path("crates", crate, "proofs", function, "Proof.antt"), names[f"Rattle-{crate}-proofs.{function.replace('/', '.')}.Lts"])


main()
