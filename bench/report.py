"""Turns the lines of the benchmark (standard input) into tables in Markdown. With --write it also writes docs/SPEED.md and docs/speed.svg.

Ends with 1 where a proved function is slower than plain C; a missed goal is only told, and so is a row whose goal is 0."""
import datetime
import html
import math
import pathlib
import re
import subprocess
import sys
import textwrap

DOCS = pathlib.Path(__file__).resolve().parent.parent / "docs"
KINDS = ("plain C", "fastest C", "proved")
PLAIN, FAST, PROVED = range(3)
SIDES = ("receiver", "sender")
WIDTHS = (1, 2, 4, 8)
TRANSFERS = 960                  # of a batch of 15 blocks
PAIRS, BATCHES = 46, 300         # of the firm; batches of a pair a day
COLUMN = 128                     # bytes, at 15 blocks
CHECK_MESSAGE, KEY = 1032, 8     # bytes
WRITTEN = {"longest": 25562, "shortest": 1342}    # bytes of the files that are written


class Row:
    """Work: times of plain C and proved, in ns. Step or batch: times of all three kinds in µs, of a width and a number of blocks."""

    def __init__(self, line):
        self.what, self.name, *numbers = line.rstrip("\n").split("\t")
        self.width, self.blocks = (0, 0) if self.what == "work" else map(int, numbers[:2])
        *self.times, self.goal = map(float, numbers[2 if self.width else 0:])
        self.ratio = self.times[-1] / self.times[PLAIN]

    def __str__(self):
        return f"{self.what}: {self.name}" + (f", k = {self.width}, P = {self.blocks}" if self.width else "")


def table(heads, lines):
    """Names to the left, numbers to the right."""
    rule = ["---"] + ["--:"] * (len(heads) - 1)
    return "\n".join("| " + " | ".join(cells) + " |" for cells in [heads, rule, *lines])


def work_table(rows):
    return table(["Work", "plain C, ns", "proved, ns", "proved/plain", "goal"],
                 [[r.name, *(f"{t:.1f}" for t in r.times), f"{r.ratio:.2f}", f"{r.goal:.2f}" if r.goal else "told"]
                  for r in rows if r.what == "work"])


def write_rate(rows, which):
    """Of the proved writer, in MB a second."""
    return next(f"{WRITTEN[which] * 1e3 / r.times[-1]:,.0f}" for r in rows if r.name == f"batch file write, {which}")


def step_table(rows, what, head):
    return table([head, "k", "P", *(f"{kind}, µs" for kind in KINDS), "proved/plain", "proved/fastest", "goal"],
                 [[r.name, str(r.width), str(r.blocks), *(f"{t:.1f}" for t in r.times), f"{r.ratio:.2f}",
                   f"{r.times[PROVED] / r.times[FAST]:.1f}", f"{r.goal:.2f}"] for r in rows if r.what == what])


def full_batches(rows):
    """The three times of a whole batch of 15 blocks, by side and width."""
    return {(r.name, r.width): r.times for r in rows if r.what == "batch" and r.blocks == 15}


def rate_table(batches):
    return table(["Side", "k", *KINDS],
                 [[side, str(k), *(f"{TRANSFERS / t:.2f}" for t in batches[side, k])] for side in SIDES for k in WIDTHS])


def day_table(batches):
    lines, all_batches = [], PAIRS * BATCHES
    for k in WIDTHS:
        seconds = [[all_batches * batches[side, k][kind] / 1e6 for side in ("sender", "receiver")] for kind in (PROVED, PLAIN)]
        sent = (128 // k - 1) * COLUMN + CHECK_MESSAGE
        lines.append([str(k), *(f"{s:.1f}" for both in seconds for s in (*both, sum(both))), f"{sent:,}", str(KEY),
                      f"{all_batches * (sent + KEY) / 1e6:.0f}"])
    return table(["k", "proved: senders, s", "receivers, s", "both, s", "plain C: senders, s", "receivers, s", "both, s",
                  "a receiver sends, bytes a batch", "a sender sends, bytes a batch", "all pairs, MB a day"], lines)


def wrap(words, indent=""):
    return textwrap.fill(" ".join(words.split()), 138, subsequent_indent=indent, break_long_words=False, break_on_hyphens=False)


def tables(rows):
    batches, all_batches = full_batches(rows), PAIRS * BATCHES
    return f"""## Whole batches

A side's two steps on one batch, timed together. P is the number of blocks of 64 transfers.

{step_table(rows, "batch", "Side")}

## Steps

The answer and the verify do the same work at every width.

{step_table(rows, "step", "Step")}

## Primitives, rows, setups and files

{wrap(f'''The forms that do four at once are compared with plain C's one at a time. The sender's setup at k = 1 makes no node, so that row is
exclusive or alone. The rows of a batch are its 960 row values without their hashes: plain C divides for the place of each bit, and in the row
below it C transposes 8 × 8 bits at once. The batch file that is read is the longest, of k = 1 and P = 15 with a setup; both look at every
rule, and copy nothing. Written are the longest, {WRITTEN["longest"]:,} bytes, and the shortest, of k = 8 and P = 1 without a setup,
{WRITTEN["shortest"]:,} bytes: proved at {write_rate(rows, "longest")} and {write_rate(rows, "shortest")} MB a second. Plain C lays them
byte by byte in the source, and gcc makes moves of 16 bytes of that. Beside C that calls memcpy the ratio is told, without a goal.''')}

{work_table(rows)}

## Transfers per second

Millions, by one core on one side, in whole batches of P = 15, which have {TRANSFERS} transfers.

{rate_table(batches)}

## A day of the firm

{wrap(f'''{PAIRS} pairs with {BATCHES} batches a day each, P = 15: {all_batches:,} batches, {all_batches * TRANSFERS / 1e6:.1f} million
transfers. CPU seconds a day of all senders and of all receivers, without setups, beside what is sent: the width trades one for the other.
A receiver sends the correction, (128/k - 1) × {COLUMN} bytes, and the check message, {CHECK_MESSAGE:,} bytes; a sender sends the key.''')}

{day_table(batches)}
"""


def first_line(*command):
    return subprocess.run(command, capture_output=True, text=True, check=True).stdout.splitlines()[0]


def cpu(field):
    return re.search(rf"^{field}\s*: (.*)$", pathlib.Path("/proc/cpuinfo").read_text(), re.M)[1]


def machine():
    return f"{datetime.date.today()}, {cpu('model name')}, {first_line('gcc', '--version')}, {first_line('rt', 'version').split()[0]}"


def fastest_uses():
    """What bench/fast.c has on this CPU."""
    flags = set(cpu("flags").split())
    if "avx512bw" not in flags:
        return "8 trees or 8 hashes side by side in 256-bit vectors (AVX2), and carry-less products for the fold"
    return ("16 trees or 16 hashes side by side in 512-bit vectors (AVX-512), one instruction for a rotation or for a function of 3 words"
            + (", four carry-less products at once for the fold" if "vpclmulqdq" in flags else ", carry-less products for the fold")
            + (", and products of 8 × 8 bit matrices (GFNI) to gather the rows" if {"gfni", "avx512vbmi"} <= flags else ""))


def document(rows):
    return f"""<!-- Written by `bench/run --write`; not edited by hand. -->

# Speed

{wrap(f"Measured in one run: {machine()}. The last built the proved library.")}

{wrap('''Three implementations of the same steps, on the same inputs. Every output byte is compared first, at every width k and every P,
and so is the verify's answer to a damaged message. All three are written so that secrets are data and masks only, but for the verify's
answer; of the proved steps that is tested (`tests/secrets.sh`). Each time is the least of many passes, the three in turn.''')}

{wrap('''- **Plain C** (`bench/plain.c`, gcc -O3 for plain x86-64) makes one ChaCha20 block, one hash and one row at a time, and
multiplies bit by bit.''', "  ")}
{wrap(f'''- **Fastest C** (`bench/fast.c`, gcc -O3 -march=native) is the limit of the construction on this CPU: {fastest_uses()}. A
compiler for plain x86-64 can use none of that.''', "  ")}
{wrap('''- **Proved** is the library. Its toolchain compiles for plain x86-64 and takes no CPU flag, so it has SSE2 only: four lanes of
32 bits, no rotation, no carry-less product.''', "  ")}

![A whole batch at P = 15: the time of each side at each width, in plain C, in the fastest C, and proved](speed.svg)

{tables(rows)}"""


# The plot: the whole batches of 15 blocks, as bars on a logarithmic axis.

COLORS = ("#9a9a9a", "#e08a1e", "#1f6fb4")
LEFT, RIGHT, TOP, BOTTOM = 56, 708, 62, 340
BAR = 23


def text(x, y, words, size=12, anchor="middle", color="#222222"):
    """With a white rim, where it stands on a line."""
    return (f'<text x="{x:.1f}" y="{y:.1f}" font-size="{size}" text-anchor="{anchor}" fill="{color}" stroke="#ffffff" stroke-width="3"'
            f' paint-order="stroke">{html.escape(words)}</text>')


def rect(x, y, width, height, color):
    return f'<rect x="{x:.1f}" y="{y:.1f}" width="{width:.1f}" height="{height:.1f}" fill="{color}"/>'


def line(x1, y1, x2, y2, color):
    return f'<line x1="{x1:.1f}" y1="{y1:.1f}" x2="{x2:.1f}" y2="{y2:.1f}" stroke="{color}"/>'


def plot(rows):
    batches = full_batches(rows)
    times = [t for three in batches.values() for t in three]
    low, high = math.floor(math.log10(min(times))), math.log10(1.4 * max(times))

    def level(t):
        return BOTTOM - (math.log10(t) - low) / (high - low) * (BOTTOM - TOP)

    out = [rect(0, 0, 720, 400, "#ffffff"),
           text(LEFT, 22, f"A whole batch of {TRANSFERS} transfers (P = 15) on one core, µs, logarithmic axis", 14, "start")]
    for n, kind in enumerate(KINDS):
        out += [rect(LEFT + 100 * n, 34, 12, 12, COLORS[n]), text(LEFT + 100 * n + 18, 44.5, kind, 12, "start")]
    for power in range(low, math.floor(high) + 1):
        y = level(10 ** power)
        out += [line(LEFT, y, RIGHT, y, "#dddddd"), text(LEFT - 6, y + 4, f"{10 ** power:,}", 11, "end")]
    group = (RIGHT - LEFT) / len(batches)
    for s, side in enumerate(SIDES):
        out.append(text(LEFT + (s + 0.5) * len(WIDTHS) * group, BOTTOM + 40, side, 14))
        for w, k in enumerate(WIDTHS):
            middle = LEFT + (s * len(WIDTHS) + w + 0.5) * group
            out.append(text(middle, BOTTOM + 18, f"k = {k}"))
            for n, t in enumerate(batches[side, k]):
                x, y = middle + (n - 1.5) * BAR, level(t)
                out += [rect(x, y, BAR - 2, BOTTOM - y, COLORS[n]), text(x + (BAR - 2) / 2, y - 3, f"{t:.0f}", 9.5)]
    middle = (LEFT + RIGHT) / 2
    out += [line(LEFT, BOTTOM, RIGHT, BOTTOM, "#222222"), line(middle, BOTTOM, middle, BOTTOM + 42, "#222222"),
            text(RIGHT, 395, machine(), 9.5, "end", "#666666")]
    head = '<svg xmlns="http://www.w3.org/2000/svg" width="720" height="400" viewBox="0 0 720 400" font-family="sans-serif">'
    return "\n".join([head, *out, "</svg>\n"])


def main():
    rows = [Row(words) for words in sys.stdin]
    print(machine() + "\n\n" + tables(rows), flush=True)
    if "--write" in sys.argv:
        (DOCS / "SPEED.md").write_text(document(rows))
        (DOCS / "speed.svg").write_text(plot(rows))
    held = [r for r in rows if r.goal]
    slower = [r for r in held if r.ratio > 1]
    for r in held:
        if r.ratio > r.goal:
            print(f"goal missed: {r}: {r.ratio:.3f}, goal {r.goal:.2f}", file=sys.stderr)
    for r in slower:
        print(f"slower than plain C: {r}: {r.ratio:.3f}", file=sys.stderr)
    sys.exit(1 if slower else 0)


main()
