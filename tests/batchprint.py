#!/usr/bin/env python3
"""Runs the program batchprint on files that are read, refused or too long, and holds what it prints to the second implementation's text."""

import pathlib
import random
import subprocess
import sys

ROOT = pathlib.Path(__file__).resolve().parent.parent
sys.path.insert(0, str(ROOT / "reference"))
import file  # noqa: E402

rng = random.Random(2)


def laid(width, blocks, batch, setup=True, **given):
    """A file whose bodies have any content, of the lengths that the head asks for; a body that is given stands in its place."""
    lengths = file.body_lengths(width, blocks)
    head = given.get("head", file.head_body(width, blocks, batch))
    key = given.get("key", rng.randbytes(lengths[file.KEY]))
    others = [rng.randbytes(lengths[kind]) for kind in (file.CORRECTION, file.CHECK)]
    return file.write(head, rng.randbytes(lengths[file.SETUP]) if setup else None, others[0], key, others[1])


def cases():
    """Inputs, with the first line that is printed of each."""
    for width in (1, 2, 4, 8):
        for blocks, batch in (1, 10), (9, 2**32 - 1), (10, 2**64 - 1):
            for setup in (True, False):
                yield laid(width, blocks, batch, setup), "width %d blocks %d batch %d" % (width, blocks, batch)
        short = file.short_head_body(width, 10, 99)
        yield laid(width, 10, 99, head=short), "width %d blocks 10 batch 99" % width
    longest = laid(1, 15, 7)
    yield longest, "width 1 blocks 15 batch 7"
    yield longest + b"\0", "too long"
    yield rng.randbytes(100000), "too long"
    yield longest[:-1], "refused 7"
    yield b"", "refused 7"
    yield laid(8, 2, 5, head=bytes([8, 2, 5, 0, 0])), "refused 8"
    yield laid(8, 2, 5, head=bytes([3, 2, 5, 0, 0, 0, 0, 0])), "refused 8"
    yield laid(8, 2, 5, head=bytes([3, 2, 5, 0, 0, 0])), "refused 1"
    yield laid(8, 2, 0), "refused 3"
    yield laid(8, 2, 5, head=bytes([8, 16, 5, 0, 0, 0])), "refused 4"
    yield laid(8, 2, 5, key=bytes(7)), "refused 8"
    yield laid(8, 2, 5, key=bytes([1]) + bytes(7)), "refused 9"


wrong = 0
for data, first in cases():
    text = file.batchprint(data)
    assert text.split("\n")[0] == first
    printed = subprocess.run([ROOT / "build/batchprint"], input=data, stdout=subprocess.PIPE).stdout
    if printed != text.encode():
        wrong += 1
        print("batchprint: %d bytes gave %r, not %r" % (len(data), printed, text))
sys.exit(1 if wrong else 0)
