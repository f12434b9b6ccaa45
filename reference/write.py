#!/usr/bin/env python3
"""Writes what the programs are run on and what they must print, from this implementation alone.

usage: write.py           write the files anew
       write.py --check   write nothing; fail where a stored file is not what would be written
"""

import functools
import hashlib
import pathlib
import random
import sys

import batch
import chacha20
import file
import filecases
import gf64
import published
import setup
import sha256
import sizes
from records import LIMIT, USABLE_KEYS, WEAK_KEYS, Records, derived, long, numbers

ROOT = pathlib.Path(__file__).resolve().parent.parent

# What a record of the program vectors asks for.
BLOCK, DIGEST, REPEATED, LINE, FOUR_BLOCKS, FOUR_DIGESTS, FOUR_FOLDS, NONCE, RECEIVER_SETUP, SENDER_SETUP = range(1, 11)

# And one of the program batches.
SET, OPEN, BATCH, RECEIVER_START, SENDER_CORRECT, RECEIVER_ANSWER, SENDER_VERIFY = range(1, 8)

# What can be damaged in a whole batch: the correction and the message as the sender gets them; W, delta and the key at its verify.
CORRECTION, MESSAGE, TABLE, DELTA, KEY = range(5)

MOST = (1 << 32) - 1
LAST = (1 << 64) - 1


def lanes(parts):
    """Four lists of 4-byte words side by side: word w of lane l at 4w + l."""
    return b"".join(parts[l][4 * w:4 * w + 4] for w in range(len(parts[0]) // 4) for l in range(4))


def lent(number, ranges):
    """A number, the ranges' lengths, and the ranges."""
    return b"".join(x.to_bytes(4, "little") for x in [number] + [len(r) for r in ranges]) + b"".join(ranges)


def record_bytes(record):
    """A record as the programs are given it: the last batch number has 8 bytes, the others have 4."""
    return numbers(record.width) + long(record.last) + numbers(record.blocks, record.stage)


def stepped(answer, record, ranges=()):
    """The answer's number, the record, and the first 8 bytes of the digest of each range, as they are after a step. Of the last batch
    number the lower half stands in the record; the upper one, where it isn't 0, at the end."""
    upper = record.last >> 32
    line = bytes([answer]) + numbers(record.width, record.last & MOST, record.blocks, record.stage)
    line += b"".join(hashlib.sha256(r).digest()[:8] for r in ranges)
    return (line + (numbers(upper) if upper else b"")).hex()


def pads_told(line):
    """What the line of a step that ends a batch has of the pads, its last range."""
    return line[2 * (1 + 4 * 4 + 3 * 8):2 * (1 + 4 * 4 + 4 * 8)]


class Vectors(Records):
    """What the program vectors runs: a line a record."""

    def block(self, key, counter, nonce):
        payload = key + counter.to_bytes(4, "little") + nonce
        self.add(BLOCK, payload, chacha20.block(key, counter, nonce).hex())

    def four_blocks(self, keys, counter, nonce):
        payload = lanes(keys) + counter.to_bytes(4, "little") + nonce
        self.add(FOUR_BLOCKS, payload, lanes([chacha20.block(k, counter, nonce) for k in keys]).hex())

    def nonce(self, use, batch):
        self.add(NONCE, numbers(use) + long(batch), chacha20.nonce(use, batch).hex())

    def digest(self, message):
        self.add(DIGEST, message, sha256.digest(message).hex())

    def repeated(self, count, byte):
        self.add(REPEATED, count.to_bytes(4, "little") + bytes([byte]), sha256.digest(bytes([byte]) * count).hex())

    def four_digests(self, messages):
        self.add(FOUR_DIGESTS, b"".join(messages), b"".join(map(sha256.digest, messages)).hex())

    def line(self, data):
        self.add(LINE, data, gf64.foldprint(data).rstrip("\n"))

    def four_folds(self, key, columns):
        folds = [gf64.fold(key, gf64.words(c)).to_bytes(8, "little") for c in columns]
        self.add(FOUR_FOLDS, key.to_bytes(8, "little") + b"".join(columns), b"".join(folds).hex())

    def setup(self, kind, step, width, ranges):
        """The answer's number, and the digest of what the range out, the last, then holds."""
        answer, after = step(width, *ranges)
        self.add(kind, lent(width, ranges), "%02x" % answer + sha256.digest(after).hex())
        return answer, after

    def receiver_setup(self, width, *ranges):
        return self.setup(RECEIVER_SETUP, setup.receiver_setup, width, ranges)

    def sender_setup(self, width, *ranges):
        return self.setup(SENDER_SETUP, setup.sender_setup, width, ranges)


class Batches(Records):
    """What the program batches plays: a line a step. The two sessions' records are handed on from step to step and from batch to batch,
    there and here."""

    def __init__(self):
        super().__init__()
        self.receiver = self.sender = batch.Record(0, 0, 0, 0)

    # Single steps, on a record of their own. Each sends the lengths of the ranges, and a seed: its number, where none is given.

    def step(self, kind, record, given, lengths, step, seed=None):
        """A record of one step on four ranges, of which those that it writes are the last. Given are a batch number and blocks, or a key."""
        seed = self.records if seed is None else seed
        ranges = [derived(seed, i, n) for i, n in enumerate(lengths)]
        answer, after, *out = step(*ranges)
        line = stepped(answer, after, ranges[:4 - len(out)] + out)
        self.add(kind, record_bytes(record) + given + numbers(seed, *lengths), line)
        return answer, after

    def receiver_start(self, record, number, blocks, lengths):
        return self.step(RECEIVER_START, record, long(number) + numbers(blocks), lengths,
                         lambda *ranges: batch.receiver_start(record, number, blocks, *ranges))

    def sender_correct(self, record, number, blocks, lengths):
        return self.step(SENDER_CORRECT, record, long(number) + numbers(blocks), lengths,
                         lambda *ranges: batch.sender_correct(record, number, blocks, *ranges))

    def receiver_answer(self, record, key, lengths, seed=None):
        return self.step(RECEIVER_ANSWER, record, long(key), lengths,
                         lambda *ranges: batch.receiver_answer(record, key, *ranges), seed)

    def sender_verify(self, record, key, lengths, seed=None):
        return self.step(SENDER_VERIFY, record, long(key), lengths,
                         lambda *ranges: batch.sender_verify(record, key, *ranges), seed)

    # The two sessions.

    def set(self, receiver, sender):
        self.receiver, self.sender = receiver, sender
        self.add(SET, record_bytes(receiver) + record_bytes(sender))

    def open(self, width):
        """The answer, which is that of both."""
        answer, self.receiver = batch.open_session(self.receiver, width)
        again, self.sender = batch.open_session(self.sender, width)
        assert answer == again
        self.add(OPEN, numbers(width), stepped(answer, self.receiver), stepped(again, self.sender))
        return answer

    def batch(self, seed, width, number, blocks, key, delta, damage=()):
        """A whole batch, on the siblings of an honest setup; its base pads are all 0. The damage has triples of a range, a place and what
        is added there. The ranges that the seed gives are roots, choices, V, correction, W, message and both sides' pads. The answers of
        the four steps."""
        length = batch.start_lengths(width, blocks)
        length += [sizes.receiver_pads_length(width, blocks), sizes.sender_pads_length(width, blocks)]
        roots, choices, v, correction = [derived(seed, i, n) for i, n in enumerate(length[:4])]
        w, message = derived(seed, 4, len(v)), derived(seed, 5, sizes.check_message_length(width))
        mine, both = derived(seed, 6, length[4]), derived(seed, 7, length[5])
        payload = long(number) + numbers(blocks) + long(key) + numbers(seed) + delta + numbers(*length)
        payload += b"".join(numbers(place) + bytes([what, 0, mask, 0]) for what, place, mask in damage)
        first, self.receiver, choices, v, correction = batch.receiver_start(self.receiver, number, blocks, roots, choices, v, correction)
        lines = [stepped(first, self.receiver, (roots, choices, v, correction))]
        second, self.receiver, message, mine = batch.receiver_answer(self.receiver, key, choices, v, message, mine)
        lines.append(stepped(second, self.receiver, (choices, v, message, mine)))
        correction, siblings = damaged(damage, CORRECTION, correction), honest_siblings(width, delta, roots)
        third, self.sender, w = batch.sender_correct(self.sender, number, blocks, siblings, delta, correction, w)
        lines.append(stepped(third, self.sender, (siblings, delta, correction, w)))
        message, w, delta = damaged(damage, MESSAGE, message), damaged(damage, TABLE, w), damaged(damage, DELTA, delta)
        key = int.from_bytes(damaged(damage, KEY, key.to_bytes(8, "little")), "little")
        fourth, self.sender, both = batch.sender_verify(self.sender, key, w, delta, message, both)
        lines.append(stepped(fourth, self.sender, (w, delta, message, both)))
        self.add(BATCH, payload, *lines)
        return [first, second, third, fourth]


def damaged(damage, what, data):
    data = bytearray(data)
    for kind, place, mask in damage:
        if kind == what:
            data[place] ^= mask
    return bytes(data)


honest_siblings = functools.lru_cache(maxsize=8)(setup.beside_paths)


def fill(length):
    """What a range holds where it doesn't matter, and where it must stay."""
    return bytes(1 + i % 255 for i in range(length))


def wrong_lengths(lengths):
    """Each length in turn one too small, one too large, and 0."""
    for at, right in enumerate(lengths):
        for wrong in (right - 1, right + 1, 0):
            yield lengths[:at] + [wrong] + lengths[at + 1:]


def setups_done(v, rng):
    for width in setup.WIDTHS:
        roots, pads = rng.randbytes(sizes.roots_length(width)), rng.randbytes(sizes.receiver_base_pads_length(width))
        delta, siblings = rng.randbytes(sizes.delta_length(width)), fill(sizes.siblings_length(width))
        _, message = v.receiver_setup(width, roots, pads, fill(sizes.setup_message_length(width)))
        for given in (delta, bytes(len(delta)), b"\xff" * len(delta)):
            mine = setup.sender_pads(width, given, pads)
            done = v.sender_setup(width, given, mine, message, siblings)
            assert done == (setup.DONE, setup.beside_paths(width, given, roots))
        v.sender_setup(width, *map(rng.randbytes, setup.sender_setup_lengths(width)[:3]), siblings)


def setups_refused(v):
    def receiver(width, lengths, number):
        assert v.receiver_setup(width, *map(fill, lengths))[0] == number

    def sender(width, lengths, number):
        assert v.sender_setup(width, *map(fill, lengths))[0] == number

    for lengths in wrong_lengths(setup.receiver_setup_lengths(8)):
        receiver(8, lengths, setup.LENGTH)
    receiver(1, setup.receiver_setup_lengths(8), setup.LENGTH)
    receiver(8, setup.receiver_setup_lengths(1), setup.LENGTH)
    for lengths in wrong_lengths(setup.sender_setup_lengths(4)):
        sender(4, lengths, setup.LENGTH)
    for width in (0, 3, 5, 16, (1 << 32) - 1):
        receiver(width, setup.receiver_setup_lengths(max(width, 1)), setup.WIDTH)
        sender(width, setup.sender_setup_lengths(max(width, 1)), setup.WIDTH)
    receiver(3, [*setup.receiver_setup_lengths(3)[:2], 8191], setup.WIDTH)
    receiver(3, [1, 2, 3], setup.WIDTH)
    sender(3, [15, *setup.sender_setup_lengths(3)[1:]], setup.WIDTH)
    sender(3, [1, 2, 3, 4], setup.WIDTH)


def ready(width, last):
    return batch.Record(width, last, 0, batch.READY)


def opened(width, last, blocks):
    return batch.Record(width, last, blocks, batch.OPEN)


def closed(width, last, blocks):
    return batch.Record(width, last, blocks, batch.CLOSED)


ACCEPTED = [batch.DONE] * 4
REFUSED = [batch.DONE] * 3 + [batch.CHECK]
HELD = [batch.DONE, batch.WEAK_KEY] * 2


def session(v, rng, width, blocks_each):
    """Two sessions on three honest batches, from their opening on. A number that was had is refused on both sides, and so is one below
    it."""
    seed, delta = v.records, rng.randbytes(sizes.delta_length(width))
    assert v.open(width) == batch.DONE
    for number, blocks in zip((1, 2, MOST), blocks_each):
        assert v.batch(seed, width, number, blocks, rng.randrange(1 << 64), delta) == ACCEPTED
        assert v.receiver == v.sender == ready(width, number)
        for again in {number, 1}:
            refused = v.batch(seed, width, again, blocks, rng.randrange(1 << 64), delta)
            assert refused == [batch.BATCH, batch.STAGE, batch.BATCH, batch.STAGE]
        assert v.receiver == v.sender == ready(width, number)


def long_session(v, rng, width):
    """Two sessions on honest batches about 2^32 and at the end of 64 bits, after the first. Batches whose numbers differ in the upper half
    alone have other streams: the choices of no two are the same. The last number there is is followed by none."""
    seed, delta = v.records, rng.randbytes(sizes.delta_length(width))
    roots, chosen = derived(seed, 0, sizes.roots_length(width)), set()
    assert v.open(width) == batch.DONE
    for number in (1, MOST, MOST + 1, MOST + 2, 1 << 63, LAST):
        assert v.batch(seed, width, number, 1, rng.randrange(1 << 64), delta) == ACCEPTED
        assert v.receiver == v.sender == ready(width, number)
        chosen.add(batch.receiver_batch(width, roots, number, sizes.column_length(width, 1))[0])
        for again in sorted({number, number & MOST}):
            refused = v.batch(seed, width, again, 1, rng.randrange(1 << 64), delta)
            assert refused == [batch.BATCH, batch.STAGE, batch.BATCH, batch.STAGE]
    assert len(chosen) == 6
    for number in (0, 1, MOST, MOST + 1, 1 << 63, LAST - 1, LAST):
        assert v.batch(seed, width, number, 1, 27, delta) == [batch.BATCH, batch.STAGE, batch.BATCH, batch.STAGE]
    assert v.receiver == v.sender == ready(width, LAST)


def closed_session(v, rng, width):
    """A check that fails closes the sender's session: it refuses every further step by its stage, until it is opened again."""
    seed, delta = v.records, rng.randbytes(sizes.delta_length(width) - 1) + b"\xff"
    last = sizes.correction_length(width, 1) - 1
    v.open(width)
    assert v.batch(seed, width, 1, 1, 27, delta, [(CORRECTION, last, 1)]) == REFUSED
    assert v.sender == closed(width, 1, 1)
    for number, blocks in ((2, 1), (2, 2), (1, 1), (0, 15)):
        answers = v.batch(seed, width, number, blocks, 27, delta)
        assert answers[2:] == [batch.STAGE, batch.STAGE]
        assert v.sender == closed(width, 1, 1)
    assert v.open(3) == batch.WIDTH and v.sender.stage == batch.CLOSED
    v.open(width)
    assert v.batch(seed, width, 1, 1, 27, delta) == ACCEPTED


def openings(v):
    """Opening gives a ready record, whatever the record held; a width that isn't allowed leaves it as it was."""
    strange = [(0, 0, 0, 0), (3, 7, 16, 3), (16, MOST, MOST, MOST), (8, 5, 15, 2), (1, MOST, 0, 0), (MOST, 1, 1, 1)]
    for receiver, sender in zip(strange, strange[1:] + strange[:1]):
        for width in (0, 3, 5, 16, MOST):
            v.set(batch.Record(*receiver), batch.Record(*sender))
            assert v.open(width) == batch.WIDTH
            assert (v.receiver, v.sender) == (receiver, sender)
        for width in setup.WIDTHS:
            v.set(batch.Record(*receiver), batch.Record(*sender))
            assert v.open(width) == batch.DONE
            assert v.receiver == v.sender == (width, 0, 0, 0)


def played(v, seed, width, number, key, delta, damage):
    """A batch of one block on two sessions opened for it, and whether it was accepted: the record is then ready, else closed."""
    v.open(width)
    answers = v.batch(seed, width, number, 1, key, delta, damage)
    assert answers in (ACCEPTED, REFUSED)
    assert v.sender == (ready(width, number) if answers == ACCEPTED else closed(width, number, 1))
    return answers == ACCEPTED


def held(v, seed, width, number, key, delta, damage=()):
    """A batch of one block under a key that isn't usable, on two sessions opened for it: it stays open on both sides."""
    v.open(width)
    assert v.batch(seed, width, number, 1, key, delta, damage) == HELD
    assert v.receiver == v.sender == opened(width, number, 1)


def corrections_damaged(v, rng, width):
    """One bit of the correction altered, in each tree in turn: accepted just where delta_i is 0. Of delta every third tree's part is 0, so
    both occur."""
    seed, number, key = v.records, rng.randrange(1, 1 << 32), rng.randrange(1, 1 << 64)
    trees, length, accepted = sizes.trees_of(width), sizes.column_length(width, 1), 0
    d = sum(rng.randrange(1, 1 << width) << i * width for i in range(trees) if i % 3)
    delta = d.to_bytes(sizes.delta_length(width), "little")
    for i in range(1, trees):
        damage = [(CORRECTION, (i - 1) * length + rng.randrange(length), 1 << rng.randrange(8))]
        verdict = played(v, seed, width, number, key, delta, damage)
        assert verdict == (setup.delta_of(width, delta, i) == 0)
        accepted += verdict
    assert 0 < accepted < trees - 1


def guesses(v, rng, width):
    """A receiver that guesses a tree's part of delta: it alters that tree's correction, and adds the folded error to the sent folds of
    those columns whose bit it takes to be 1. Accepted just where the guess is right."""
    seed, number, key = v.records, rng.randrange(1, 1 << 32), rng.randrange(1, 1 << 64)
    delta, trees, length = rng.randbytes(sizes.delta_length(width)), sizes.trees_of(width), sizes.column_length(width, 1)
    for i in (1, trees // 2, trees - 1):
        d, place, mask = setup.delta_of(width, delta, i), rng.randrange(length), rng.randrange(1, 256)
        error = gf64.fold(key, gf64.words(damaged([(0, place, mask)], 0, bytes(length)))).to_bytes(8, "little")
        for guess in sorted({d, d ^ 1, d ^ 1 << width - 1, 0}):
            columns = [i * width + b for b in range(width) if guess >> b & 1]
            damage = [(CORRECTION, (i - 1) * length + place, mask)]
            damage += [(MESSAGE, 8 * (1 + c) + x, error[x]) for c in columns for x in range(8)]
            assert played(v, seed, width, number, key, delta, damage) == (guess == d)


def messages_damaged(v, rng, width, folds):
    """One bit of the check message altered, in each of the folds named: refused, but for the choice fold where delta is 0."""
    seed, number, key = v.records, rng.randrange(1, 1 << 32), rng.randrange(1 << 64)
    delta, length = rng.randbytes(sizes.delta_length(width)), sizes.check_message_length(width)
    for fold in folds:
        damage = [(MESSAGE, 8 * fold + rng.randrange(8), 1 << rng.randrange(8))]
        assert not played(v, seed, width, number, key, delta, damage)
    zeros = bytes(len(delta))
    assert played(v, seed, width, number, key, zeros, [(MESSAGE, rng.randrange(8), 1)])
    assert not played(v, seed, width, number, key, zeros, [(MESSAGE, rng.randrange(8, length), 1)])


def verifies_damaged(v, rng, width):
    """A verify on another delta, W or key than the batch's, each altered in one bit; the key 0, with which no batch is ended; and delta 0
    and all ones."""
    seed, number, key = v.records, rng.randrange(1, 1 << 32), rng.randrange(1 << 64)
    delta, columns, length = rng.randbytes(sizes.delta_length(width)), sizes.columns(width), sizes.column_length(width, 1)
    for place in (0, rng.randrange(len(delta)), len(delta) - 1):
        assert not played(v, seed, width, number, key, delta, [(DELTA, place, 1 << rng.randrange(8))])
    for column in (0, rng.randrange(columns), columns - 1):
        damage = [(TABLE, column * length + rng.randrange(length), 1 << rng.randrange(8))]
        assert not played(v, seed, width, number, key, delta, damage)
    for place in (0, 7):
        assert not played(v, seed, width, number, key, delta, [(KEY, place, 1 << rng.randrange(8))])
    zeros, ones = bytes(len(delta)), b"\xff" * len(delta)
    for given in (zeros, ones):
        assert played(v, seed, width, number, key, given, [])
        held(v, seed, width, number, 0, given, [(CORRECTION, 0, 255)])
    assert played(v, seed, width, number, key, zeros, [(CORRECTION, 8, 1)])
    assert not played(v, seed, width, number, key, ones, [(CORRECTION, 8, 1)])
    held(v, seed, width, number, 0, ones, [(CORRECTION, 8, 1)])


def steps_done(v, rng, width):
    """Each step alone, on records that hold any numbers where none is asked for, and on siblings, tables and messages of no setup."""
    for blocks in (1, 2, 15):
        record = batch.Record(width, rng.randrange(1 << 31), rng.randrange(1 << 32), batch.READY)
        number = rng.randrange(1 << 31, 1 << 32)
        assert v.receiver_start(record, number, blocks, batch.start_lengths(width, blocks))[0] == batch.DONE
        assert v.sender_correct(record, number, blocks, batch.correct_lengths(width, blocks))[0] == batch.DONE
        for key in (rng.randrange(1 << 64), 0, LAST):
            ended(v, width, number, blocks, key)


def ended(v, width, number, blocks, key, seed=None):
    """Either step that ends a batch, alone, on ranges of the right lengths: the receiver's is done, and the sender's check fails; or the
    key isn't usable, and both leave the record. What the line then has of the receiver's pads."""
    record = opened(width, number, blocks)
    answered, verified = (batch.DONE, ready(width, number)), (batch.CHECK, closed(width, number, blocks))
    if not batch.usable(key):
        answered = verified = batch.WEAK_KEY, record
    assert v.receiver_answer(record, key, batch.answer_lengths(width, blocks), seed) == answered
    pads = pads_told(v.lines[-1])
    assert v.sender_verify(record, key, batch.verify_lengths(width, blocks), seed) == verified
    return pads


def long_steps(v, rng, width):
    """Each step alone, on records whose last number passes 32 bits, closed ones and opened ones too."""
    for number in (rng.randrange(1 << 32, 1 << 64), MOST + 1, LAST):
        record = batch.Record(width, number - 1, rng.randrange(1 << 32), batch.READY)
        assert v.receiver_start(record, number, 1, batch.start_lengths(width, 1))[0] == batch.DONE
        assert v.sender_correct(record, number, 1, batch.correct_lengths(width, 1))[0] == batch.DONE
        record = opened(width, number, 1)
        assert v.receiver_answer(record, 27, batch.answer_lengths(width, 1))[0] == batch.DONE
        failed = batch.CHECK, closed(width, number, 1)
        assert v.sender_verify(record, 27, batch.verify_lengths(width, 1)) == failed
        assert v.sender_verify(failed[1], 27, batch.verify_lengths(width, 1)) == (batch.STAGE, failed[1])
        v.set(record, record)
        assert v.open(3) == batch.WIDTH and v.sender == record
        assert v.open(width) == batch.DONE and v.sender == ready(width, 0)


def long_numbers_refused(call, lengths):
    """A number that doesn't follow the last, where their lower halves say otherwise, or say nothing."""
    for last, number in ((MOST + 1, 1), (MOST + 1, MOST), (MOST + 1, MOST + 1), (7 << 32, (6 << 32) + 9), (7 << 32 | 5, 7 << 32 | 5),
                         (LAST, LAST), (LAST, LAST - 1), (LAST, MOST), (LAST, 0), (1 << 63, (1 << 63) - 1)):
        for blocks in (1, 16):
            record = batch.Record(8, last, 0, 0)
            assert call(record, number, blocks, lengths) == (batch.BATCH, record)


def opening_refused(call, lengths_of):
    """What either step that opens a batch refuses. The first refusal in the step's order is given where several hold."""
    right = lengths_of(8, 1)

    def refused(number, record, given, blocks, lengths):
        assert call(batch.Record(*record), given, blocks, lengths) == (number, record)

    for width in (0, 3, 5, 16, MOST):
        refused(batch.WIDTH, (width, 0, 0, 0), 1, 1, right)
        refused(batch.WIDTH, (width, 0, 0, 0), 1, 1, [1, 2, 3, 4])
        refused(batch.WIDTH, (width, 5, 0, 7), 0, 16, [0, 0, 0, 0])
    for stage in (1, 2, 7, MOST):
        refused(batch.STAGE, (8, 0, 1, stage), 1, 1, right)
        refused(batch.STAGE, (8, 5, 1, stage), 5, 0, [1, 2, 3, 4])
    for last, number in ((0, 0), (1, 0), (1, 1), (9, 8), (MOST, MOST), (MOST, 1), (MOST, 0), (1 << 31, (1 << 31) - 1)):
        refused(batch.BATCH, (8, last, 0, 0), number, 1, right)
        refused(batch.BATCH, (8, last, 0, 0), number, 16, [1, 2, 3, 4])
    for blocks in (0, 16, 17, MOST):
        refused(batch.BLOCKS, (8, 0, 1, 0), 1, blocks, right)
        refused(batch.BLOCKS, (8, 0, 0, 0), 1, blocks, lengths_of(8, min(blocks, 17)))
        refused(batch.BLOCKS, (8, 0, 0, 0), 1, blocks, [1, 2, 3, 4])
    for width, blocks in ((8, 1), (1, 15), (2, 3), (4, 14)):
        for lengths in wrong_lengths(lengths_of(width, blocks)):
            refused(batch.LENGTH, (width, 3, 0, 0), 4, blocks, lengths)
        refused(batch.LENGTH, (width, 3, 0, 0), 4, blocks, lengths_of(width, blocks + 1))
        refused(batch.LENGTH, (width, 3, 0, 0), 4, blocks, lengths_of(3, blocks))


def ending_refused(call, lengths_of, key=27):
    """What either step that ends a batch refuses, by the record and the lengths alone. A key that isn't usable stands between them."""
    right, length = lengths_of(8, 1), batch.LENGTH if batch.usable(key) else batch.WEAK_KEY

    def refused(number, record, lengths):
        assert call(batch.Record(*record), key, lengths) == (number, record)

    for width in (0, 3, 5, 16, MOST):
        refused(batch.WIDTH, (width, 1, 1, 1), right)
        refused(batch.WIDTH, (width, 1, 1, 1), [1, 2, 3, 4])
        refused(batch.WIDTH, (width, 0, 0, 0), [0, 0, 0, 0])
    for stage in (0, 2, 3, 7, MOST):
        refused(batch.STAGE, (8, 1, 1, stage), right)
        refused(batch.STAGE, (8, 0, 16, stage), [1, 2, 3, 4])
    refused(batch.BATCH, (8, 0, 1, 1), right)
    refused(batch.BATCH, (8, 0, 0, 1), [1, 2, 3, 4])
    for blocks in (0, 16, 17, MOST):
        refused(batch.BLOCKS, (8, 1, blocks, 1), right)
        refused(batch.BLOCKS, (8, 1, blocks, 1), [1, 2, 3, 4])
    refused(batch.BLOCKS, (8, 1, 0, 1), lengths_of(8, 0))
    for width, blocks in ((8, 1), (1, 15)):
        for lengths in wrong_lengths(lengths_of(width, blocks)):
            refused(length, (width, MOST, blocks, 1), lengths)
        refused(length, (width, MOST, blocks, 1), lengths_of(width, blocks - 1))


# Keys.

def keys(v, rng, width):
    """Whole batches under keys that aren't usable. They stay open on both sides, so under one that is they can't be started, but ended: the
    receiver's answer is done, and the sender's check, on no W of the batch, fails. Then batches under keys that are usable: the pads are
    the same under all."""
    seed, number, delta = v.records, rng.randrange(1, 1 << 32), rng.randbytes(sizes.delta_length(width))
    for key in WEAK_KEYS:
        held(v, seed, width, number, key, delta)
        assert v.batch(seed, width, number, 1, key + 2, delta) == [batch.STAGE, batch.DONE, batch.STAGE, batch.CHECK]
        assert (v.receiver, v.sender) == (ready(width, number), closed(width, number, 1))
    pads = set()
    for key in USABLE_KEYS:
        assert played(v, seed, width, number, key, delta, [])
        pads.add((pads_told(v.lines[-3]), pads_told(v.lines[-1])))
    assert len(pads) == 1


def hidden(v, rng, width):
    """An error in the first and the last word of one tree's correction, whose fold is 0: it is accepted whatever delta is, and each of the
    two alone is refused where delta is all ones."""
    seed, number = v.records, rng.randrange(1, 1 << 32)
    zeros, ones = bytes(sizes.delta_length(width)), b"\xff" * sizes.delta_length(width)
    for key in (2, rng.randrange(2, 1 << 64)):
        first = [(CORRECTION, 0, 255)]
        last = [(CORRECTION, 8 + x, byte) for x, byte in enumerate(long(gf64.product(255, key))) if byte]
        for delta in (zeros, ones):
            assert played(v, seed, width, number, key, delta, first + last)
        for damage in (first, last):
            assert not played(v, seed, width, number, key, ones, damage)


def keys_in_turn(v, rng, width):
    """The steps that end a batch, alone, on the same ranges: with each key that isn't usable, then with the first that is, and with any
    other. The pads that the receiver then gets are those that it would have got at once."""
    for blocks in (1, 2, 15):
        seed, number = v.records, rng.randrange(1, 1 << 32)
        given = [ended(v, width, number, blocks, key, seed) for key in (*WEAK_KEYS, 2, rng.randrange(2, 1 << 64))]
        assert given[0] == given[1] != given[2] == given[3]


def one_key_weak(v, rng, width):
    """The key isn't usable at the sender's verify alone, on a right message and on a wrong one: the batch stays open there. Then at the
    receiver's answer alone: no message came, so the sender's check fails."""
    seed, number, delta = v.records, rng.randrange(1, 1 << 32), rng.randbytes(sizes.delta_length(width))
    for weak in WEAK_KEYS:
        for key in (2, 1 << 56):
            alter = [(KEY, place, mask) for place, mask in enumerate(long(key ^ weak)) if mask]
            for damage in ([], [(MESSAGE, rng.randrange(8, sizes.check_message_length(width)), 1)]):
                v.open(width)
                assert v.batch(seed, width, number, 1, key, delta, alter + damage) == [batch.DONE] * 3 + [batch.WEAK_KEY]
                assert (v.receiver, v.sender) == (ready(width, number), opened(width, number, 1))
            v.open(width)
            assert v.batch(seed, width, number, 1, weak, delta, alter) == [batch.DONE, batch.WEAK_KEY, batch.DONE, batch.CHECK]
            assert (v.receiver, v.sender) == (opened(width, number, 1), closed(width, number, 1))


def held_then_ended(v, rng, width):
    """A verify with key 0 on a wrong message, then with key 1, and then with the batch's, all on the sender's one record; the receiver
    plays the batch anew for each. The last is accepted, and gives the pads that it would have given at once. No W is handed on from one to
    the next, so there it is altered to what it was."""
    seed, number, key = v.records, rng.randrange(1, 1 << 32), rng.randrange(2, 1 << 64)
    delta, length = rng.randbytes(sizes.delta_length(width)), sizes.column_length(width, 1)
    roots = derived(seed, 0, sizes.roots_length(width))
    _, _, correction = batch.receiver_batch(width, roots, number, length)
    w = batch.sender_table(width, honest_siblings(width, delta, roots), delta, number, length, correction)
    again = [(TABLE, place, x ^ y) for place, (x, y) in enumerate(zip(w, derived(seed, 4, len(w)))) if x != y]
    assert played(v, seed, width, number, key, delta, [])
    pads = pads_told(v.lines[-1])
    v.open(width)
    for other, damage, third in ((0, [(MESSAGE, 8, 1)], batch.DONE), (1, [], batch.STAGE), (key, again, batch.STAGE)):
        v.set(ready(width, number - 1), v.sender)
        damage = damage + [(KEY, place, mask) for place, mask in enumerate(long(key ^ other)) if mask]
        fourth = batch.DONE if other == key else batch.WEAK_KEY
        assert v.batch(seed, width, number, 1, key, delta, damage) == [batch.DONE, batch.DONE, third, fourth]
        assert v.sender == (ready(width, number) if other == key else opened(width, number, 1))
    assert pads_told(v.lines[-1]) == pads


def batches():
    rng = random.Random(64)
    v = Batches()
    openings(v)
    for width in setup.WIDTHS:
        for blocks_each in ((15, 1, 2), (1, 2, 15), (2, 15, 1)):
            session(v, rng, width, blocks_each)
        closed_session(v, rng, width)
        corrections_damaged(v, rng, width)
        guesses(v, rng, width)
        columns = sizes.columns(width)
        messages_damaged(v, rng, width, range(1 + columns) if width == 4 else (0, 1, 2, columns // 2, columns))
        verifies_damaged(v, rng, width)
        steps_done(v, rng, width)
    opening_refused(v.receiver_start, batch.start_lengths)
    opening_refused(v.sender_correct, batch.correct_lengths)
    ending_refused(v.receiver_answer, batch.answer_lengths)
    ending_refused(v.sender_verify, batch.verify_lengths)
    for width in setup.WIDTHS:
        long_session(v, rng, width)
        long_steps(v, rng, width)
    long_numbers_refused(v.receiver_start, batch.start_lengths(8, 1))
    long_numbers_refused(v.sender_correct, batch.correct_lengths(8, 1))
    for width in setup.WIDTHS:
        for group in (keys, hidden, keys_in_turn):
            group(v, rng, width)
    one_key_weak(v, rng, 4)
    held_then_ended(v, rng, 8)
    for key in WEAK_KEYS:
        ending_refused(v.receiver_answer, batch.answer_lengths, key)
        ending_refused(v.sender_verify, batch.verify_lengths, key)
    assert len(v.asked) <= LIMIT
    return v


def weak_folds(v, rng):
    """The fold is there for keys that aren't usable, too: under 0 it is the last word, under 1 the ⊕ of all."""
    for count in (1, 2, 16):
        columns = [rng.randbytes(8 * count) for _ in range(4)]
        words = [gf64.words(column) for column in columns]
        for key, folds in ((0, [each[-1] for each in words]), (1, [batch.xor(each) for each in words])):
            v.four_folds(key, columns)
            assert v.lines[-1] == long(*folds).hex()
            v.line(long(key) + columns[0])
            assert v.lines[-1] == "%016x" % folds[0]


def vectors():
    rng = random.Random(8439)
    v = Vectors()
    for key, counter, nonce, _ in published.BLOCKS:
        v.block(key, counter, bytes.fromhex(nonce))
    for message, _ in published.DIGESTS:
        v.digest(message)
    v.repeated(1000000, ord("a"))
    assert v.lines[-1] == published.MILLION
    for key, words, _ in published.FOLDS:
        v.line(b"".join(x.to_bytes(8, "little") for x in [key] + words))
    for length in (0, 8, 15, 17, 135, 137, 144, 1000):
        v.line(rng.randbytes(length))
    for _ in range(200):
        v.block(rng.randbytes(32), rng.randrange(1 << 32), rng.randbytes(12))
    v.block(b"\xff" * 32, 0xFFFFFFFF, b"\xff" * 12)
    for use, number in ((0, 0), (1, 1), (1, 0xFFFFFFFF), (0xFFFFFFFF, 0x01020304)):
        v.nonce(use, number)
    for length in range(201):
        v.digest(rng.randbytes(length))
    for count in range(1, 17):
        for _ in range(12):
            v.line(rng.randbytes(8 + 8 * count))
        v.line(b"\xff" * (8 + 8 * count))
    for _ in range(20):
        v.four_blocks([rng.randbytes(32) for _ in range(4)], rng.randrange(1 << 32), rng.randbytes(12))
        v.four_digests([rng.randbytes(32) for _ in range(4)])
    for count in range(1, 17):
        v.four_folds(rng.randrange(1 << 64), [rng.randbytes(8 * count) for _ in range(4)])
    v.four_folds((1 << 64) - 1, [b"\xff" * (8 * 16)] * 4)
    setups_done(v, rng)
    setups_refused(v)
    for use, number in ((1, MOST + 1), (1, MOST + 2), (1, 1 << 63), (1, LAST), (MOST, 0x0807060504030201)):
        v.nonce(use, number)
    weak_folds(v, rng)
    assert len(v.asked) <= LIMIT
    return v


def session_cases(width):
    """What tests/host lends to the steps of a session of four batches, and what they must give: the roots, the siblings of an honest
    setup and delta; of each batch its number, key and blocks, and of each step the answer, the record and what it writes. Then a batch on
    sessions opened anew, in which either step that ends it is first called with keys that aren't usable: of such a call it has the key, the
    answer and the record."""
    rng = random.Random(1032 + width)
    roots, delta = rng.randbytes(sizes.roots_length(width)), rng.randbytes(sizes.delta_length(width))
    siblings = honest_siblings(width, delta, roots)
    out = roots + siblings + delta
    new = batch.open_session(ready(0, 0), width)[1]
    receiver = sender = new
    for number, blocks, weak_keys in ((1, 1, ()), (MOST, 2, ()), (MOST + 1, 1, ()), (LAST, 1, ()), (2, 1, WEAK_KEYS)):
        key = rng.randrange(1 << 64)
        if weak_keys:
            receiver, sender, key = new, new, 2
        lengths = batch.start_lengths(width, blocks)
        started = batch.receiver_start(receiver, number, blocks, roots, *map(bytes, lengths[1:]))
        _, receiver, choices, v, correction = started
        corrected = batch.sender_correct(sender, number, blocks, siblings, delta, correction, bytes(lengths[2]))
        _, sender, w = corrected
        lengths = batch.answer_lengths(width, blocks)
        answers = [batch.receiver_answer(receiver, given, choices, v, *map(bytes, lengths[2:])) for given in (*weak_keys, key)]
        _, receiver, message, _ = answers[-1]
        both = bytes(sizes.sender_pads_length(width, blocks))
        verdicts = [batch.sender_verify(sender, given, w, delta, message, both) for given in (*weak_keys, key)]
        sender = verdicts[-1][1]
        out += long(number, key) + numbers(blocks)
        for *refused, (answer, after, *written) in ([started], [corrected], answers, verdicts):
            for weak, (given, kept, *_) in zip(weak_keys, refused):
                assert (given, kept) == (batch.WEAK_KEY, opened(width, number, blocks))
                out += long(weak) + numbers(given) + record_bytes(kept)
            assert answer == batch.DONE
            out += numbers(answer) + record_bytes(after) + b"".join(written)
    return out


def setup_cases():
    """What tests/host lends to both setups and what they must write. At each width: roots, base pads and the message; delta, the
    sender's base pads and the siblings that these and that message give; then any delta, base pads and message and their siblings."""
    rng = random.Random(128)
    out = b""
    for width in setup.WIDTHS:
        roots, pads = rng.randbytes(sizes.roots_length(width)), rng.randbytes(sizes.receiver_base_pads_length(width))
        delta, siblings = rng.randbytes(sizes.delta_length(width)), bytes(sizes.siblings_length(width))
        _, message = setup.receiver_setup(width, roots, pads, bytes(sizes.setup_message_length(width)))
        mine = setup.sender_pads(width, delta, pads)
        out += roots + pads + message + delta + mine + setup.sender_setup(width, delta, mine, message, siblings)[1]
        given = [rng.randbytes(length) for length in setup.sender_setup_lengths(width)[:3]]
        out += b"".join(given) + setup.sender_setup(width, *given, siblings)[1]
    return out


class Demo:
    """What the program demo prints, of two sessions of width 8 on the ranges that its seeds give."""

    def __init__(self):
        self.text = "answers: 0 done, 2 wrong stage, 6 check failed; stage: 0 ready, 2 closed\n"
        self.roots, self.delta = derived(1, 0, sizes.roots_length(8)), derived(1, 1, sizes.delta_length(8))
        pairs = derived(1, 2, sizes.receiver_base_pads_length(8))
        first, message = setup.receiver_setup(8, self.roots, pairs, bytes(sizes.setup_message_length(8)))
        mine = setup.sender_pads(8, self.delta, pairs)
        second, self.siblings = setup.sender_setup(8, self.delta, mine, message, bytes(sizes.siblings_length(8)))
        self.text += "setup, width 8: answers %d %d\n" % (first, second)
        nothing = batch.Record(0, 0, 0, 0)
        self.receiver, self.sender = batch.open_session(nothing, 8)[1], batch.open_session(nothing, 8)[1]

    def batch(self, number, blocks, flip=0):
        """The four steps' answers, and how many pads agree."""
        key = int.from_bytes(derived(2, number, 8), "little")
        _, *given = map(bytes, batch.start_lengths(8, blocks))
        start, opened, choices, v, correction = batch.receiver_start(self.receiver, number, blocks, self.roots, *given)
        correction = damaged([(CORRECTION, 5, flip)], CORRECTION, correction)
        correct, corrected, w = batch.sender_correct(self.sender, number, blocks, self.siblings, self.delta, correction, bytes(len(v)))
        _, _, *given = map(bytes, batch.answer_lengths(8, blocks))
        answer, self.receiver, message, mine = batch.receiver_answer(opened, key, choices, v, *given)
        both = bytes(sizes.sender_pads_length(8, blocks))
        verify, self.sender, theirs = batch.sender_verify(corrected, key, w, self.delta, message, both)
        mine_each, theirs_each = batch.parts(mine, 32), batch.parts(theirs, 32)
        transfers = sizes.transfers(8, blocks)
        agree = sum(mine_each[j] == theirs_each[2 * j + (choices[j // 8] >> j % 8 & 1)] for j in range(transfers))
        self.text += "batch %d\n" % number
        self.text += side("  receiver", start, opened, answer, self.receiver) + side("   sender", correct, corrected, verify, self.sender)
        self.text += "\n  pads that agree: %d of %d" % (agree, transfers)
        self.text += "; the sender's were written" if any(theirs) else "; none of the sender's was written"
        self.text += "; digests %s %s\n" % tuple(hashlib.sha256(pads).hexdigest()[:16] for pads in (mine, theirs))
        return [start, correct, answer, verify], agree


def side(name, start, opened, end, after):
    """One side's account of a batch. Its transfers count where the step that ends it was done."""
    transfers = sizes.transfers(opened.width, opened.blocks) if end == batch.DONE else 0
    text = "%s: last %d, blocks %d, transfers %d, answers %d %d, stage %d"
    return text % (name, after.last, opened.blocks, transfers, start, end, after.stage)


def demo():
    """Three honest batches; one whose correction has a bit flipped, in a tree whose part of delta isn't 0; and one on the closed session."""
    d = Demo()
    for number, blocks in ((1, 1), (2, 15), (3, 4)):
        assert d.batch(number, blocks) == (ACCEPTED, sizes.transfers(8, blocks))
    d.text += "the receiver cheats: one bit of its correction is flipped\n"
    assert d.batch(4, 2, flip=1) == (REFUSED, 0)
    assert d.sender == closed(8, 4, 2)
    d.text += "a further batch\n"
    assert d.batch(5, 1) == ([batch.DONE, batch.STAGE, batch.DONE, batch.STAGE], 0)
    return d.text


def batch_on_file():
    """What an honest setup and a batch of the fewest blocks sent, as a site keeps it."""
    rng = random.Random(5)
    width, blocks, number, key = 8, 1, rng.randrange(1, 1 << 32), rng.randrange(1 << 64)
    roots, pads = rng.randbytes(sizes.roots_length(width)), rng.randbytes(sizes.receiver_base_pads_length(width))
    _, message = setup.receiver_setup(width, roots, pads, bytes(sizes.setup_message_length(width)))
    choices, v, correction = batch.receiver_batch(width, roots, number, sizes.column_length(width, blocks))
    head, check = file.short_head_body(width, blocks, number), batch.check_message(key, choices, v)
    data = file.write(head, message, correction, key.to_bytes(8, "little"), check)
    assert file.read(data).answer == file.DONE
    return data


def files():
    kept = batch_on_file()
    m3 = b"".join(x.to_bytes(8, "little") for x in (2, 1, 5))
    out = {
        "crates/foldprint/stdin": m3,
        "crates/foldprint/stdout": gf64.foldprint(m3).encode(),
        "crates/batchprint/stdin": kept,
        "crates/batchprint/stdout": file.batchprint(kept).encode(),
        "crates/demo/stdout": demo().encode(),
        "tests/host/setup.bin": setup_cases(),
        "tests/host/files.bin": filecases.host_cases(),
        "tests/host/writes.bin": filecases.host_writes(),
    }
    for width in setup.WIDTHS:
        out["tests/host/session%d.bin" % width] = session_cases(width)
    for name, made in (("vectors", vectors()), ("batches", batches()), ("files", filecases.cases())):
        out["crates/%s/stdin" % name] = made.asked
        out["crates/%s/stdout" % name] = "".join(line + "\n" for line in made.lines).encode()
    return out


def main():
    published.check()
    setup.check()
    batch.check()
    file.check()
    differ = 0
    for name, content in files().items():
        path = ROOT / name
        if sys.argv[1:] != ["--check"]:
            path.write_bytes(content)
        elif not path.exists() or path.read_bytes() != content:
            differ += 1
            print("reference: %s is not what the second implementation gives" % name)
    sys.exit(1 if differ else 0)


if __name__ == "__main__":
    main()
