#!/usr/bin/env python3
"""The documents say of files what stands there. A block after a line that names a file stands word for word in that file. A link leads to a
file, and one with an anchor to a heading. A function written crate::name is in that crate, and so is a definition written crate: File.name,
and a must-fail edit written crate/edit. What README and INTEGRATION name of the C library is in the header, and the table of answers has
its numbers. Every crate stands in the layers and in the table of crates. The sizes are those that tests/sizes.py counts, and README is a
page."""

import pathlib
import re
import sys

import sizes

ROOT = pathlib.Path(__file__).resolve().parent.parent
README, THEOREMS = ROOT / "README.md", ROOT / "docs/THEOREMS.md"
INTEGRATION, ARCHITECTURE, SCOPE = ROOT / "docs/INTEGRATION.md", ROOT / "docs/ARCHITECTURE.md", ROOT / "docs/SCOPE.md"
PAGES = [README, ROOT / "CONTRIBUTING.md", ROOT / "CHANGELOG.md", *sorted((ROOT / "docs").rglob("*.md"))]
README_LINES, README_BYTES = 130, 9216
HEADER = (ROOT / "include/softspoken.h").read_text()


def functions():
    """Of each crate, its functions, methods and constants, with their modules and types."""
    for file in ROOT.glob("crates/*/src/*.rt"):
        crate, module = file.parts[-3], "" if file.stem in ("lib", "main") else file.stem + "::"
        text = file.read_text()
        for name in re.findall(r"\b(?:fn|const) (\w+)", text):
            yield f"{crate}::{module}{name}"
        for kind, block in re.findall(r"^impl(?:<[^>]*>)? (?:.* for )?(\w+).*? \{\n(.*?)^\}", text, re.M | re.S):
            for name in re.findall(r"\bfn (\w+)", block):
                yield f"{crate}::{module}{kind}::{name}"


def defined(crate, file, name):
    """Whether a file of a crate's specs or proofs has a name."""
    texts = [path.read_text() for part in ("specs", "proofs") if (path := ROOT / f"crates/{crate}/{part}/{file}.antt").exists()]
    return any(re.search(rf"(?<![\w-]){re.escape(name)}(?![\w-])", text) for text in texts)


def edits(text):
    """The must-fail edits that a text names. A path from the root or from crates/ is none, as bench/run, though bench is a crate too."""
    for crate, name in re.findall(r"`(\w+)/([\w-]+)`", text):
        paths = [ROOT / crate / name, ROOT / "crates" / crate / name]
        if (ROOT / "crates" / crate).is_dir() and not any(path.exists() for path in paths):
            yield crate, name


def anchors(page):
    """The anchors of a page's headings, as GitHub makes them: letters, digits, - and _ stay, a blank becomes -, and a heading that comes
    again gets a number."""
    found = {}
    for heading in re.findall(r"^#+ (.+)$", re.sub(r"^```.*?^```", "", page.read_text(), flags=re.M | re.S), re.M):
        shown = re.sub(r"\[([^]]*)\]\([^)]*\)", r"\1", heading).strip()
        anchor = re.sub(r"[^\w -]", "", shown.lower()).replace(" ", "-")
        again = found[anchor] = found.get(anchor, -1) + 1
        yield f"{anchor}-{again}" if again else anchor


def is_section(path, anchor):
    """Whether a link leads somewhere: to a file, and where it has an anchor, to a heading in it."""
    return path.exists() and (not anchor or anchor in anchors(path))


known = set(functions())
failures = []
seen = dict(blocks=0, links=0, anchors=0, edits=0, functions=0, definitions=0, names=0, answers=0, crates=0, sizes=0)


def expect(kind, page, what, holds):
    seen[kind] += 1
    if not holds:
        failures.append(f"{page.name}: {what}")


def check_links(page, text):
    for target in re.findall(r"\]\(([^)\s]+)\)", text):
        path, _, anchor = target.partition("#")
        kind = "anchors" if anchor else "links"
        expect(kind, page, f"nothing at {target}", "://" in target or is_section(page.parent / path if path else page, anchor))


def check_names(page, text):
    """What a host reads names nothing that the header hasn't."""
    for name in sorted(set(re.findall(r"\b(?:softspoken|SOFTSPOKEN)_\w+", text))):
        expect("names", page, f"no {name} in the header", re.search(rf"\b{name}\b", HEADER))


def check_answers(page):
    """Each answer of the header has a row with its number and name, and each row is an answer."""
    answers = {name: int(number) for name, number in re.findall(r"^ +(SOFTSPOKEN_(?:DONE|ERR_\w+)) = (\d+)", HEADER, re.M)}
    rows = {name: int(number) for number, name in re.findall(r"^\| (\d+) \| `(SOFTSPOKEN_\w+)` \|", page.read_text(), re.M)}
    for name in {**answers, **rows}:
        expect("answers", page, f"{name} is {answers.get(name)}, told as {rows.get(name)}", answers.get(name) == rows.get(name))


def check_crates(page):
    """The crates are those in the layers, whose lines are indented and end with what they say, and those in the table."""
    text = page.read_text()
    listed = set(re.findall(r"^(\w+)(?: \w+)*:", (ROOT / "crates.txt").read_text(), re.M))
    layers = {name for line in re.findall(r"^    (\w.*)$", text, re.M) for name in re.split(r" {2,}", line)[:-1]}
    rows = {name for row in re.findall(r"^\| ((?:`\w+`(?:, )?)+) \|", text, re.M) for name in re.findall(r"\w+", row)}
    for crate in sorted(listed | layers | rows):
        expect("crates", page, f"{crate} is not in crates.txt, the layers and the table alike", crate in listed & layers & rows)


def check_sizes(page):
    """Each file that must be believed has a row with its lines."""
    believed = sizes.believed()
    rows = {name: int(lines) for name, lines in re.findall(r"^\|[^|]*\| `(crates/[^`]+)` \| (\d+) \|", page.read_text(), re.M)}
    for name in {**believed, **rows}:
        expect("sizes", page, f"{name} has {believed.get(name)} lines to believe", rows.get(name) == believed.get(name))


def check_sums(page, told):
    """The sums stand in the text."""
    flat = " ".join(page.read_text().split())
    for words, count in sizes.sums().items():
        if words in told:
            expect("sizes", page, f"there are {count:,} {words}", re.search(rf"(?<![\d,]){count:,} {words}", flat))


def check_length(page):
    data = page.read_bytes()
    lines = data.count(b"\n")
    expect("sizes", page, f"{lines} lines, more than {README_LINES}", lines <= README_LINES)
    expect("sizes", page, f"{len(data):,} bytes, more than {README_BYTES:,}", len(data) <= README_BYTES)


for page in PAGES:
    text = page.read_text()
    for name, block in re.findall(r"^`([^`\n]+)`:\n```\w*\n(.*?)\n```$", text, re.M | re.S):
        expect("blocks", page, f"a block is not in {name}", block in (ROOT / name).read_text())
    check_links(page, text)
    for crate, name in edits(text):
        expect("edits", page, f"no edit {crate}/{name}", (ROOT / f"crates/{crate}/must-fail/{name}.edit").exists())
    if page in (README, INTEGRATION):
        check_names(page, text)
    if page in (SCOPE, THEOREMS):
        for name in re.findall(r"`(\w+(?:::\w+)+)`", text):
            expect("functions", page, f"no function {name}", name in known)
        for crate, file, name in re.findall(r"`(\w+): (\w+)\.([\w⊕-]+)`", text):
            expect("definitions", page, f"no {name} in {crate}, {file}", defined(crate, file, name))
check_answers(INTEGRATION)
check_crates(ARCHITECTURE)
check_sizes(THEOREMS)
check_sums(THEOREMS, sizes.sums())
check_sums(README, ["files", "lines of definitions", "wrong edits"])
check_length(README)
failures += [f"no {kind} found" for kind, count in seen.items() if count == 0]
for failure in failures:
    print(failure)
print("docs: " + ", ".join(f"{count} {kind}" for kind, count in seen.items()))
sys.exit(1 if failures else 0)
