"""A batch on file, for any bytes: paper 02, notes 1, 3, 4 and 5.

A file has its contents, then its bodies: of the kinds in order, of which the setup may be absent. The names are those of setup.py.
"""

import collections
import itertools
import random

import sha256
import sizes
from batch import BATCH, BLOCKS, WEAK_KEY, parts, usable
from setup import DONE, LENGTH, WIDTH, WIDTHS

CONTENTS, BODY = 7, 8

KINDS = SETUP, HEAD, CORRECTION, KEY, CHECK = range(1, 6)

HEAD_LENGTHS = sizes.head_length(), sizes.short_head_length()

Entry = collections.namedtuple("Entry", "kind offset length")
Head = collections.namedtuple("Head", "width blocks batch")

# Places has one for each kind, where its body begins, and then the file's end; bodies has one for each kind.
Read = collections.namedtuple("Read", "answer head places bodies")


# Laying a file, also what isn't to be read: bodies of any length, and contents that say anything.

def head_body(width, blocks, batch):
    return bytes([width, blocks]) + batch.to_bytes(sizes.head_length() - 2, "little")


def short_head_body(width, blocks, batch):
    return bytes([width, blocks]) + batch.to_bytes(sizes.short_head_length() - 2, "little")


def entries_of(kinds, lengths):
    """Entries in this order, whose bodies follow the contents without gaps."""
    starts = itertools.accumulate(lengths, initial=sizes.contents_length(len(kinds)))
    return [Entry(*fields) for fields in zip(kinds, starts, lengths)]


def contents(count, entries):
    return b"".join(x.to_bytes(4, "little") for x in [count, *itertools.chain(*entries)])


def write(head, setup, correction, key, check):
    """The setup is None where it is absent."""
    bodies = [body for body in (setup, head, correction, key, check) if body is not None]
    entries = entries_of(KINDS if setup is not None else KINDS[1:], [len(body) for body in bodies])
    return contents(len(entries), entries) + b"".join(bodies)


# Reading.

def entries_in(file):
    """The entries, or None if their count is neither 4 nor 5, or the file ends before they do."""
    count = int.from_bytes(file[:4], "little")
    if len(file) < 4 or count not in (4, 5) or len(file) < sizes.contents_length(count):
        return None
    fields = [int.from_bytes(field, "little") for field in parts(file[4:sizes.contents_length(count)], 4)]
    return [Entry(*fields[at:at + 3]) for at in range(0, len(fields), 3)]


def contents_right(entries, length):
    """Whether the kinds are in order, only the setup absent, and the bodies follow without gaps to the file's end."""
    if tuple(entry.kind for entry in entries) not in (tuple(KINDS), tuple(KINDS[1:])):
        return False
    end = sizes.contents_length(len(entries))
    for entry in entries:
        if entry.offset != end:
            return False
        end += entry.length
    return end == length


def answer_to(bodies):
    """The answer that the bodies get, which are there by their kinds."""
    if len(bodies[HEAD]) not in HEAD_LENGTHS:
        return BODY
    return answer_by(head_in(bodies[HEAD]), {kind: body for kind, body in bodies.items() if kind != HEAD})


def answer_by(head, others):
    """The answer that the head's values get, and then the other bodies, which are there by their kinds."""
    if head.width not in WIDTHS:
        return WIDTH
    if head.batch == 0:
        return BATCH
    if not 1 <= head.blocks <= 15:
        return BLOCKS
    right = body_lengths(head.width, head.blocks)
    if any(len(body) != right[kind] for kind, body in others.items()):
        return BODY
    return DONE if usable(key_in(others[KEY])) else WEAK_KEY


def head_in(body):
    return Head(body[0], body[1], int.from_bytes(body[2:], "little"))


def key_in(body):
    return int.from_bytes(body, "little")


def body_lengths(width, blocks):
    """The length that a body has, by its kind; of a head the longer one."""
    return {SETUP: sizes.setup_message_length(width), HEAD: sizes.head_length(), CORRECTION: sizes.correction_length(width, blocks),
            KEY: sizes.key_length(width), CHECK: sizes.check_message_length(width)}


def read(file):
    """A body is a part of the file, an absent one empty: it begins where the next does. Of a file that is refused nothing is handed out:
    the head's values are 0, and every body is empty, at the file's end."""
    entries = entries_in(file)
    if entries is None or not contents_right(entries, len(file)):
        return refused(CONTENTS, file)
    found = {entry.kind: file[entry.offset:entry.offset + entry.length] for entry in entries}
    answer = answer_to(found)
    if answer != DONE:
        return refused(answer, file)
    places = [entry.offset for entry in entries] + [len(file)]
    bodies = [found.get(kind, b"") for kind in KINDS]
    return Read(DONE, head_in(found[HEAD]), places[:1] * (len(KINDS) - len(entries)) + places, bodies)


def refused(answer, file):
    return Read(answer, Head(0, 0, 0), [len(file)] * (len(KINDS) + 1), [b""] * len(KINDS))


# Writing, always with the long head.

def write_batch(head, setup, correction, key, check, lent):
    """The answer, and what the range that is lent for the file then holds. A setup without bytes is none."""
    others = {CORRECTION: correction, KEY: key, CHECK: check}
    answer = answer_by(head, {SETUP: setup, **others} if setup else others)
    if answer != DONE:
        return answer, lent
    if len(lent) != sizes.file_length(head.width, head.blocks, len(setup)):
        return LENGTH, lent
    return DONE, write(head_body(*head), setup or None, correction, key, check)


# What the program batchprint prints.

def longest():
    """No file that is read is longer."""
    lengths = [sum(body_lengths(width, blocks).values()) for width in WIDTHS for blocks in range(1, 16)]
    return sizes.contents_length(len(KINDS)) + max(lengths)


def batchprint(data):
    """The whole output: of a file that is read the head's values, and of each kind its body's length and digest."""
    if len(data) > longest():
        return "too long\n"
    found = read(data)
    if found.answer != DONE:
        return "refused %d\n" % found.answer
    text = "width %d blocks %d batch %d\n" % found.head
    for kind, body in zip(KINDS, found.bodies):
        text += "kind %d length %d sha256 %s\n" % (kind, len(body), sha256.digest(body).hex())
    return text


def write_again(data):
    """What is written of a file that is read, into a range of the exact length: it is read with the same values and bodies, and of a file
    with a long head it is the same bytes."""
    _, head, _, (setup, old_head, *others) = read(data)
    answer, after = write_batch(head, setup, *others, bytes(sizes.file_length(head.width, head.blocks, len(setup))))
    again = read(after)
    assert (answer, again.answer, again.head) == (DONE, DONE, head)
    assert again.bodies == [setup, head_body(*head), *others]
    assert (after == data) == (len(old_head) == sizes.head_length())
    return after


def check():
    """What was laid is read, at every width, with either head, and with and without a setup, and each body lies between its place and the
    next. Written, it is the file that has the long head, and nothing is written to a range of another length. With a key that isn't usable
    it is neither read nor written."""
    rng = random.Random(1)
    for width in WIDTHS:
        for blocks in (1, 2, 15):
            given = {kind: rng.randbytes(length) for kind, length in body_lengths(width, blocks).items()}
            short, long = rng.randrange(1, 1 << 32), rng.randrange(1, 1 << 64)
            for batch, head in ((short, short_head_body(width, blocks, short)), (long, head_body(width, blocks, long))):
                for setup in (given[SETUP], None):
                    others = [given[kind] for kind in (CORRECTION, KEY, CHECK)]
                    file = write(head, setup, *others)
                    answer, found, places, bodies = read(file)
                    assert (answer, found) == (DONE, (width, blocks, batch))
                    assert bodies == [setup or b"", head, *others]
                    assert bodies == [file[a:b] for a, b in itertools.pairwise(places)]
                    written = write_again(file)
                    assert written == write(head_body(width, blocks, batch), setup, *others)
                    for lent in (bytes(len(written) - 1), bytes(len(written) + 1)):
                        assert write_batch(found, setup or b"", *others, lent) == (LENGTH, lent)
                    for key in (0, 1):
                        others[1] = key.to_bytes(8, "little")
                        weak = write(head, setup, *others)
                        assert read(weak) == refused(WEAK_KEY, weak)
                        for lent in (bytes(len(written)), bytes(len(written) - 1)):
                            assert write_batch(found, setup or b"", *others, lent) == (WEAK_KEY, lent)
