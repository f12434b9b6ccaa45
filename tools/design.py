#!/usr/bin/env python3
"""Counts, in the crates' src/, the places of each point of docs/DESIGN-PASS.md:  tools/design.py [POINT] [FOLDER]

Without a point it prints a number for each count, with one the places. It reads text, so it finds candidates; the page says what each is."""
import difflib
import pathlib
import re
import sys
from collections import defaultdict

FUNCTION = re.compile(r"^( *)(?:pub )?(?:const )?(?:extern \"C\" )?fn (\w+)", re.M)


def functions(text):
    """Name, parameters, contract and body of each function."""
    for m in FUNCTION.finditer(text):
        end = text.find("\n" + m.group(1) + "}", m.start())
        whole = text[m.start():end if end > 0 else len(text)]
        opening = re.search(r"\{\n" if "\n" + m.group(1) + "{\n" not in whole else r"\n" + m.group(1) + r"\{\n", whole)
        head, body = (whole[:opening.start()], whole[opening.end():]) if opening else (whole, "")
        inside = head[head.find("(") + 1:]
        depth, stop = 1, 0
        for stop, c in enumerate(inside):
            depth += (c == "(") - (c == ")")
            if not depth:
                break
        parameters = re.findall(r"(\w+): ([^,]+?)(?=, *\w+:|,?\s*$)", inside[:stop])
        yield m.group(2), text[:m.start()].count("\n") + 1, parameters, inside[stop:], body


def conjuncts(contract):
    for clause in re.findall(r"(?:requires|ensures)\b[^{]*\{(.*?)\}(?=\s*(?:requires|ensures|$))", contract, re.S):
        for fact in re.split(r" × (?![^()]*\))", clause.strip()):
            fact = fact.strip()
            while fact.startswith("(") and fact.endswith(")"):
                fact = fact[1:-1].strip()
            yield fact


def main():
    arguments = sys.argv[1:]
    point = arguments.pop(0) if arguments and arguments[0].isdigit() else None
    top = pathlib.Path(arguments[0] if arguments else pathlib.Path(__file__).resolve().parent.parent)
    files = sorted(top.glob("crates/*/src/**/*.rt"))
    found = defaultdict(list)
    twins, facts, travel = [], defaultdict(list), defaultdict(list)
    for path in files:
        text = path.read_text()
        place = str(path.relative_to(top))
        for number, line in enumerate(text.split("\n"), 1):
            here = f"{place}:{number}: {line.strip()}"
            code = line.split("//")[0]
            if re.match(r"\s*(pub )?enum ", code):
                found["1 enums"].append(here)
            if re.search(r"->.*\bAnswer\b|: Answer\b", code):
                found["1 parameters, fields and results of the own enum Answer"].append(here)
            if re.search(r"\b(kind|stage|number|present): (u8|u32|usize|bool)\b", code) or re.search(r"\bconst (READY|OPEN|CLOSED)\b", code):
                found["1 numbers and flags for kinds, stages and refusals"].append(here)
            if re.match(r"\s*(while|loop)\b", code):
                found["3 loops that count by hand (while, loop)"].append(here)
            if re.match(r"\s*('\w+: )?for\b", code):
                found["3 (for comparison: for)"].append(here)
            if re.search(r"% 256\) as u8|>> \d+\) % 256|\* 0x1[0_]+\b|/ 0x1[0_]+\b|% 0x1[0_]+\b", code):
                found["4 bytes and halves of numbers by hand"].append(here)
            if re.search(r"\blen: usize,?$", code):
                found["6 a buffer's length beside it"].append(here)
            if re.search(r"match kind|\bkind ==", code):
                found["7 switches on a kind"].append(here)
        for name, line, parameters, contract, body in functions(text):
            here = f"{place}:{line}: {name}"
            if name in ("number_of", "is_done", "same", "number", "add", "rotate_left", "rotate_right", "known", "clear", "copy_part", "print",
                        "print_digits", "alter", "written", "longest_file", "constants"):
                found["4 functions that std or a derive may have"].append(here)
            if body.count("\n") >= 2:
                shape = re.sub(r"\b\d\w*\b", "0", re.sub(r"\b[ui](8|16|32|64)\b", "u", re.sub(r"(\w*?)(8|16|32|64)\b", r"\1", body)))
                twins.append((here, shape))
            for fact in set(conjuncts(contract)):
                if not re.match(r"result\b", fact):
                    facts[fact].append(here)
            names = [f"{p}: {t}" for p, t in parameters]
            for i, a in enumerate(names):
                for b in names[i + 1:]:
                    travel[(a, b)].append(here)
    for i, (a, x) in enumerate(twins):
        for b, y in twins[i + 1:]:
            matcher = difflib.SequenceMatcher(None, x, y)
            if matcher.real_quick_ratio() > 0.9 and matcher.quick_ratio() > 0.9 and matcher.ratio() > 0.9:
                found["2 pairs of functions with nearly one body"].append(f"{a} | {b}")
    for fact, where in sorted(facts.items(), key=lambda x: -len(x[1])):
        if len(where) >= 3:
            found["5 facts in the contracts of three functions or more"].append(f"{len(where)} times: {fact}   ({where[0]} ..)")
    for pair, where in sorted(travel.items(), key=lambda x: -len(x[1])):
        if len(where) >= 4:
            found["5 pairs of parameters in four functions or more"].append(f"{len(where)} times: {', '.join(pair)}   ({where[0]} ..)")
    for kind in ("Proof", "Invariants", "Answers"):
        found[f"8 files {kind}.antt"] = [str(p.relative_to(top)) for p in sorted(top.glob(f"crates/*/proofs/**/{kind}.antt"))]
    lines = sum(p.read_text().count("\n") for p in top.glob("crates/*/proofs/**/*.antt"))
    found["8 lines of proofs/"] = [""] * lines
    for what, where in sorted(found.items()):
        if point is None:
            print(f"{len(where):5}  {what}")
        elif what.startswith(point):
            print(f"{what}: {len(where)}")
            print("".join(f"    {here}\n" for here in where if here), end="")


main()
