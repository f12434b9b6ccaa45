#!/usr/bin/env python3
"""C calls the exports of crates/host_c, and the theorems are about the functions of crates/host. So each function softspoken_.. of host has an
export of its name, with its parameters, its result and its clauses, word for word and of the same definitions, which calls it with its own
parameters in their order and does nothing else; and there is no other export. (That the exports keep those clauses is proved.) The same is
tried on texts with a planted fault, which must be seen."""

import pathlib
import re
import sys

ROOT = pathlib.Path(__file__).resolve().parent.parent
HOST, EXPORTS = [(ROOT / f"crates/{crate}/src/lib.rt").read_text() for crate in ("host", "host_c")]
# a text of the exports, and the fault that is planted there
PLANTED = [("roots.now base_pads.now", "base_pads.now roots.now"), ("(width, roots, base_pads, message)", "(width, base_pads, roots, message)"),
           ("host::softspoken_open(rec, width)", "4"), ("blocks: u32", "blocks: u64"), ("rec.old width answer rec.new", "rec.old width answer rec.old"),
           ("pub extern \"C\" fn softspoken_file_read", "fn other"), ("Rattle.session.specs.Steps.", "Rattle.session.specs.Other."),
           ("    ensures { result ≡ file_read file.now }", "    requires { ⊥ }\n    ensures { result ≡ file_read file.now }")]


def functions(text, head):
    """Of each function that begins so, its parameters, result and clauses, and its body."""
    found = re.findall(rf"^{re.escape(head)}(softspoken_\w+)(\(.*?)^\{{\n(.*?)^\}}$", text, re.M | re.S)
    return {name: (" ".join(promise.split()), " ".join(body.split())) for name, promise, body in found}


def call(name, promise):
    parameters = re.findall(r"(\w+): ", promise[:promise.index(")")])
    return f"host::{name}({', '.join(parameters)})"


def imports(text):
    """The definitions that the clauses may name, by their paths."""
    for path, names in re.findall(r"^ghost use ([\w.]+)\.\{(.*?)\};", text, re.M | re.S):
        yield from (f"{path}.{name.strip()}" for name in names.split(",") if name.strip())


def faults(host, exports):
    wanted, given = functions(host, "pub fn "), functions(exports, '#[unsafe(no_mangle)]\npub extern "C" fn ')
    for name in sorted({*wanted, *given}):
        if name not in wanted or name not in given:
            yield f"{name} is not in host and host_c alike"
        elif given[name][0] != wanted[name][0]:
            yield f"{name} has another promise in host_c"
        elif given[name][1] != call(name, given[name][0]):
            yield f"{name} does not only call the function of host"
    if len(re.findall(r"\bfn\b", re.sub(r"//.*", "", exports))) != len(given):
        yield "host_c has other functions"
    yield from (f"host has no import {name}" for name in imports(exports) if name not in set(imports(host)))


found = list(faults(HOST, EXPORTS))
unseen = [old for old, new in PLANTED if old not in EXPORTS or not list(faults(HOST, EXPORTS.replace(old, new, 1)))]
found += [f"a planted fault was not seen: {old}" for old in unseen]
count = len(functions(HOST, "pub fn "))
print("\n".join(found + [f"exports: {count} functions, {len(PLANTED)} planted faults tried"]))
sys.exit(1 if found or not count else 0)
