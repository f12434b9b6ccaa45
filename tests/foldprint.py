#!/usr/bin/env python3
"""Runs the program foldprint on inputs of many lengths, and holds what it prints to the second implementation's line."""

import pathlib
import random
import subprocess
import sys

ROOT = pathlib.Path(__file__).resolve().parent.parent
sys.path.insert(0, str(ROOT / "reference"))
import gf64  # noqa: E402

rng = random.Random(64)
wrong = 0
for length in [0, 1, 7, 8, 9, 15, 17, 135, 137, 143, 144, 4096, 1000000] + list(range(16, 137, 8)):
    data = rng.randbytes(length)
    printed = subprocess.run([ROOT / "build/foldprint"], input=data, stdout=subprocess.PIPE).stdout
    if printed != gf64.foldprint(data).encode():
        wrong += 1
        print("foldprint: %d bytes gave %r" % (length, printed))
sys.exit(1 if wrong else 0)
