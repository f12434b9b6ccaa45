"""What the programs are run on: records, and the ranges that they name by a seed."""

import hashlib

# No program reads more than this.
LIMIT = 1000000

# The keys that aren't usable, and some that are: the next two and the highest; and those of which some bytes alone, or all in the other
# order, would be 0 or 1.
WEAK_KEYS = 0, 1
USABLE_KEYS = 2, 3, 256, 257, 1 << 32, (1 << 32) + 1, 1 << 56, 1 << 63, (1 << 64) - 1


def derived(seed, number, length):
    """A range of a record, which is not sent: bytes 32j to 32j + 31 are SHA-256 of the record's seed, the range's number and j, 4 bytes
    each."""
    head = seed.to_bytes(4, "little") + number.to_bytes(4, "little")
    count = (length + 31) // 32
    return b"".join(hashlib.sha256(head + j.to_bytes(4, "little")).digest() for j in range(count))[:length]


def numbers(*given):
    """4 bytes each."""
    return b"".join(x.to_bytes(4, "little") for x in given)


def long(*given):
    """8 bytes each."""
    return b"".join(x.to_bytes(8, "little") for x in given)


class Records:
    """Records and the lines that they give: a kind, the length of what follows, and that."""

    def __init__(self):
        self.asked = b""
        self.lines = []
        self.records = 0

    def add(self, kind, payload, *lines):
        self.asked += bytes([kind]) + len(payload).to_bytes(4, "little") + payload
        self.lines += lines
        self.records += 1
