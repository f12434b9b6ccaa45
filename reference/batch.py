"""A batch's steps, for any inputs: paper 01, 'Trees and streams', 'Folding and pads' and 'Steps and their turning away'; which keys are
usable, paper 02, note 5.

The names are those of setup.py. Of the paper's letters, u_0 is the choices, V the receiver's table and W the sender's. A column is
a number here, row j its bit j.
"""

import collections
import functools
import random

import chacha20
import gf64
import setup
import sha256
import sizes
from setup import DONE, LENGTH, NODE, WIDTH, WIDTHS

STAGE, BATCH, BLOCKS, CHECK, WEAK_KEY = 2, 3, 4, 6, 9
READY, OPEN, CLOSED = 0, 1, 2

Record = collections.namedtuple("Record", "width last blocks stage")


def xor(numbers):
    return functools.reduce(lambda a, b: a ^ b, numbers, 0)


def xor_bytes(a, b):
    assert len(a) == len(b)
    return bytes(x ^ y for x, y in zip(a, b))


def parts(data, length):
    return [data[at:at + length] for at in range(0, len(data), length)]


def stored(columns, length):
    return b"".join(column.to_bytes(length, "little") for column in columns)


# Leaves and their streams. A tree's leaves are pairs of the leaf's number and its node.

def below(nodes):
    """The numbered nodes of many trees one depth further down: of each tree a list of pairs."""
    made = iter(chacha20.blocks([node for tree in nodes for _, node in tree], 0, chacha20.nonce(0, 0)))
    out = []
    for tree in nodes:
        out.append([])
        for number, _ in tree:
            children = next(made)
            out[-1] += [(2 * number, children[:NODE]), (2 * number + 1, children[NODE:])]
    return out


@functools.lru_cache(maxsize=8)
def receiver_leaves(width, roots):
    """Every leaf of each tree."""
    nodes = [[(0, root)] for root in parts(roots, NODE)]
    for _ in range(width):
        nodes = below(nodes)
    return nodes


@functools.lru_cache(maxsize=8)
def sender_leaves(width, delta, siblings):
    """The leaves of each tree that the nodes beside its path lead to: all but the one at the path's end."""
    trees = range(sizes.trees_of(width))
    beside = [setup.beside(width, setup.delta_of(width, delta, i)) for i in trees]
    nodes = [[] for _ in trees]
    for level in range(width):
        nodes = below(nodes)
        for i in trees:
            nodes[i].append((beside[i][level], setup.node_at(siblings, i * width + level)))
    return nodes


def streams(leaves, batch, length):
    """Of each tree the pairs of a leaf's number y and its stream F(y)."""
    nodes = [node for tree in leaves for _, node in tree]
    halves = [chacha20.blocks(nodes, counter, chacha20.nonce(1, batch)) for counter in (0, 1)]
    made = iter([int.from_bytes((a + b)[:length], "little") for a, b in zip(*halves)])
    return [[(y, next(made)) for y, _ in tree] for tree in leaves]


@functools.lru_cache(maxsize=8)
def receiver_streams(width, roots, batch, length):
    return streams(receiver_leaves(width, roots), batch, length)


@functools.lru_cache(maxsize=8)
def sender_streams(width, delta, siblings, batch, length):
    return streams(sender_leaves(width, delta, siblings), batch, length)


# Sums and columns of one tree.

def total(tree):
    return xor(f for _, f in tree)


def receiver_columns(width, tree):
    return [xor(f for y, f in tree if y >> b & 1) for b in range(width)]


def sender_columns(width, d, tree):
    return [xor(f for y, f in tree if y != d and (y ^ d) >> b & 1) for b in range(width)]


# What the three steps write.

def receiver_batch(width, roots, batch, length):
    """The choices, the receiver's table and the correction."""
    trees = receiver_streams(width, roots, batch, length)
    u = [total(tree) for tree in trees]
    table = [column for tree in trees for column in receiver_columns(width, tree)]
    return stored(u[:1], length), stored(table, length), stored([x ^ u[0] for x in u[1:]], length)


def sender_table(width, siblings, delta, batch, length, correction):
    added = [0] + [int.from_bytes(part, "little") for part in parts(correction, length)]
    out = []
    for i, tree in enumerate(sender_streams(width, delta, siblings, batch, length)):
        d = setup.delta_of(width, delta, i)
        for b, column in enumerate(sender_columns(width, d, tree)):
            out.append(column ^ (added[i] if d >> b & 1 else 0))
    return stored(out, length)


def row(width, table, length, j):
    """Bit j of each column."""
    bits = (table[c * length + j // 8] >> j % 8 & 1 for c in range(sizes.columns(width)))
    return sum(bit << c for c, bit in enumerate(bits))


def rows(width, blocks, table):
    """The row values that get pads."""
    length = sizes.column_length(width, blocks)
    return [row(width, table, length, j) for j in range(sizes.transfers(width, blocks))]


def pad(width, batch, j, value):
    head = b"PADS" + batch.to_bytes(8, "little") + j.to_bytes(4, "little")
    return sha256.digest(head + value.to_bytes(sizes.delta_length(width), "little"))


def receiver_pads(width, batch, blocks, table):
    return b"".join(pad(width, batch, j, value) for j, value in enumerate(rows(width, blocks, table)))


def sender_pads(width, batch, blocks, table, delta):
    """Pad 0 before pad 1 in each row."""
    d = int.from_bytes(delta, "little")
    both = (pad(width, batch, j, value) + pad(width, batch, j, value ^ d) for j, value in enumerate(rows(width, blocks, table)))
    return b"".join(both)


def folds(key, table, length):
    return [gf64.fold(key, gf64.words(column)) for column in parts(table, length)]


def check_message(key, choices, table):
    return b"".join(x.to_bytes(8, "little") for x in folds(key, choices + table, len(choices)))


def accepts(width, key, table, delta, message):
    """Whether in every column the sent fold ⊕ the fold of W is the sent choice fold where delta has the bit, and 0 elsewhere."""
    first, *sent = gf64.words(message)
    d, columns = int.from_bytes(delta, "little"), sizes.columns(width)
    mine = folds(key, table, len(table) // columns)
    return all(sent[c] ^ mine[c] == (first if d >> c & 1 else 0) for c in range(columns))


# The steps. Each gives the answer's number, the record, and what the ranges out then hold.

def usable(key):
    """With 0 the fold sees only the last block, and with 1 it can't tell one block from another."""
    return key >= 2


def opening(record, batch, blocks, lengths):
    """The answer of a step that opens a batch; lengths tells whether every range has the length named."""
    if record.width not in WIDTHS:
        return WIDTH
    if record.stage != READY:
        return STAGE
    if batch == 0 or batch <= record.last:
        return BATCH
    if not 1 <= blocks <= 15:
        return BLOCKS
    return DONE if lengths() else LENGTH


def ending(record, key, lengths):
    """The answer of a step that ends a batch, but for the check."""
    if record.width not in WIDTHS:
        return WIDTH
    if record.stage != OPEN:
        return STAGE
    if record.last == 0:
        return BATCH
    if not 1 <= record.blocks <= 15:
        return BLOCKS
    if not usable(key):
        return WEAK_KEY
    return DONE if lengths() else LENGTH


def start_lengths(width, blocks):
    """Roots, choices, table, correction."""
    return [sizes.roots_length(width), sizes.column_length(width, blocks), sizes.table_length(width, blocks),
            sizes.correction_length(width, blocks)]


def correct_lengths(width, blocks):
    """Siblings, delta, correction, table."""
    return [sizes.siblings_length(width), sizes.delta_length(width), sizes.correction_length(width, blocks),
            sizes.table_length(width, blocks)]


def answer_lengths(width, blocks):
    """Choices, table, message, pads."""
    return [sizes.column_length(width, blocks), sizes.table_length(width, blocks), sizes.check_message_length(width),
            sizes.receiver_pads_length(width, blocks)]


def verify_lengths(width, blocks):
    """Table, delta, message, pads."""
    return [sizes.table_length(width, blocks), sizes.delta_length(width), sizes.check_message_length(width),
            sizes.sender_pads_length(width, blocks)]


def lengths_of(ranges):
    return [len(r) for r in ranges]


def open_session(record, width):
    """Whatever the record held."""
    if width not in WIDTHS:
        return WIDTH, record
    return DONE, Record(width, 0, 0, READY)


def receiver_start(record, batch, blocks, roots, choices, table, correction):
    given = lengths_of((roots, choices, table, correction))
    answer = opening(record, batch, blocks, lambda: given == start_lengths(record.width, blocks))
    if answer != DONE:
        return answer, record, choices, table, correction
    after = Record(record.width, batch, blocks, OPEN)
    return (DONE, after) + receiver_batch(record.width, roots, batch, sizes.column_length(record.width, blocks))


def sender_correct(record, batch, blocks, siblings, delta, correction, table):
    given = lengths_of((siblings, delta, correction, table))
    answer = opening(record, batch, blocks, lambda: given == correct_lengths(record.width, blocks))
    if answer != DONE:
        return answer, record, table
    after, length = Record(record.width, batch, blocks, OPEN), sizes.column_length(record.width, blocks)
    return DONE, after, sender_table(record.width, siblings, delta, batch, length, correction)


def receiver_answer(record, key, choices, table, message, pads):
    given = lengths_of((choices, table, message, pads))
    answer = ending(record, key, lambda: given == answer_lengths(record.width, record.blocks))
    if answer != DONE:
        return answer, record, message, pads
    after = Record(record.width, record.last, 0, READY)
    return DONE, after, check_message(key, choices, table), receiver_pads(record.width, record.last, record.blocks, table)


def sender_verify(record, key, table, delta, message, pads):
    given = lengths_of((table, delta, message, pads))
    answer = ending(record, key, lambda: given == verify_lengths(record.width, record.blocks))
    if answer != DONE:
        return answer, record, pads
    if not accepts(record.width, key, table, delta, message):
        return CHECK, record._replace(stage=CLOSED), pads
    after = Record(record.width, record.last, 0, READY)
    return DONE, after, sender_pads(record.width, record.last, record.blocks, table, delta)


# What an honest batch has, and how a damaged one is judged.

def check_honest(rng, width, batch, blocks):
    """Row j of W is row j of V, ⊕ delta where the choice is 1; the sender accepts; and the receiver's pad is the sender's of the
    choice's number."""
    roots, delta = rng.randbytes(sizes.roots_length(width)), rng.randbytes(sizes.delta_length(width))
    key, length = rng.randrange(1 << 64), sizes.column_length(width, blocks)
    siblings = setup.beside_paths(width, delta, roots)
    choices, v, correction = receiver_batch(width, roots, batch, length)
    w = sender_table(width, siblings, delta, batch, length, correction)
    d = int.from_bytes(delta, "little")
    chosen = [choices[j // 8] >> j % 8 & 1 for j in range(8 * length)]
    assert 0 < sum(chosen) < 8 * length
    for j, choice in enumerate(chosen):
        assert row(width, w, length, j) == row(width, v, length, j) ^ (d if choice else 0)
    given, before = Record(width, batch, blocks, OPEN), bytes(sizes.sender_pads_length(width, blocks))
    answer, after, both = sender_verify(given, key, w, delta, check_message(key, choices, v), before)
    assert (answer, after) == (DONE, Record(width, batch, 0, READY))
    mine, both = parts(receiver_pads(width, batch, blocks, v), 32), parts(both, 32)
    assert mine == [both[2 * j + chosen[j]] for j in range(sizes.transfers(width, blocks))]


def equation_holds(width, key, delta, errors, choice, sent):
    """Demand 3's equation in every column c: delta's bit c times the folded error of its tree is the error in sent fold c. Of the errors
    given, one a tree, the first is 0; the others are those of the sent choice fold and of the sent folds."""
    d = int.from_bytes(delta, "little")
    folded = [choice ^ gf64.fold(key, gf64.words(error)) for error in errors]
    return all((folded[c // width] if d >> c & 1 else 0) == sent[c] for c in range(sizes.columns(width)))


def damages(rng, width, key, delta, length):
    """Errors of the trees, of the sent choice fold and of the sent folds: at random in one place each, and those that a receiver sends
    who guesses one tree's part of delta, and guesses right or not."""
    trees, columns = sizes.trees_of(width), sizes.columns(width)
    for i in rng.sample(range(1, trees), 4):
        d, error = setup.delta_of(width, delta, i), rng.randbytes(length)
        folded = gf64.fold(key, gf64.words(error))
        for guess in {0, d, d ^ 1, d ^ 1 << width - 1}:
            sent = [folded if c // width == i and guess >> c % width & 1 else 0 for c in range(columns)]
            yield [error if x == i else bytes(length) for x in range(trees)], 0, sent
    clean = [bytes(length)] * trees
    yield clean, 1 << rng.randrange(64), [0] * columns
    for _ in range(3):
        c = rng.randrange(columns)
        yield clean, 0, [1 << rng.randrange(64) if x == c else 0 for x in range(columns)]


def check_damaged(rng, width, batch, blocks, delta):
    """A damaged batch is accepted just where demand 3's equation holds, and gives the pads of its W; one that isn't accepted closes the
    record and leaves the pads. Both must occur."""
    roots, key = rng.randbytes(sizes.roots_length(width)), rng.randrange(1, 1 << 64)
    length, verdicts = sizes.column_length(width, blocks), set()
    siblings = setup.beside_paths(width, delta, roots)
    choices, v, correction = receiver_batch(width, roots, batch, length)
    message, before = check_message(key, choices, v), rng.randbytes(sizes.sender_pads_length(width, blocks))
    given = Record(width, batch, blocks, OPEN)
    for errors, choice, sent in damages(rng, width, key, delta, length):
        w = sender_table(width, siblings, delta, batch, length, xor_bytes(correction, b"".join(errors[1:])))
        received = xor_bytes(message, b"".join(x.to_bytes(8, "little") for x in [choice] + sent))
        answer, after, pads = sender_verify(given, key, w, delta, received, before)
        verdicts.add(answer)
        if equation_holds(width, key, delta, errors, choice, sent):
            assert (answer, after) == (DONE, Record(width, batch, 0, READY))
            assert pads == sender_pads(width, batch, blocks, w, delta)
        else:
            assert (answer, after, pads) == (CHECK, Record(width, batch, blocks, CLOSED), before)
    assert verdicts == {DONE, CHECK}


def check_weak_keys(rng, width, batch, blocks):
    """With a key that isn't usable both sides leave everything, on a right message and on a wrong one; then the batch is ended with one
    that is, and the pads are those of any other usable key."""
    roots, delta = rng.randbytes(sizes.roots_length(width)), rng.randbytes(sizes.delta_length(width))
    choices, v, correction = receiver_batch(width, roots, batch, sizes.column_length(width, blocks))
    w = sender_table(width, setup.beside_paths(width, delta, roots), delta, batch, sizes.column_length(width, blocks), correction)
    given, ended = Record(width, batch, blocks, OPEN), Record(width, batch, 0, READY)
    message, pads = [rng.randbytes(length) for length in answer_lengths(width, blocks)[2:]]
    both = rng.randbytes(sizes.sender_pads_length(width, blocks))
    for weak, key in ((0, 2), (1, 3), (1, (1 << 64) - 1)):
        assert receiver_answer(given, weak, choices, v, message, pads) == (WEAK_KEY, given, message, pads)
        for received in (message, check_message(weak, choices, v), check_message(key, choices, v)):
            assert sender_verify(given, weak, w, delta, received, both) == (WEAK_KEY, given, both)
        mine, theirs = receiver_pads(width, batch, blocks, v), sender_pads(width, batch, blocks, w, delta)
        sent = check_message(key, choices, v)
        assert receiver_answer(given, key, choices, v, message, pads) == (DONE, ended, sent, mine)
        assert sender_verify(given, key, w, delta, sent, both) == (DONE, ended, theirs)


def check_columns(width, bits, u, receiver, senders):
    """One row of one tree, from the bits of its leaves; senders has pairs of a secret and the sender's bits, as numbers."""
    def number(columns):
        return sum(bit << b for b, bit in enumerate(columns))

    tree = list(enumerate(bits))
    assert (total(tree), number(receiver_columns(width, tree))) == (u, receiver)
    for d, sender in senders:
        assert number(sender_columns(width, d, tree)) == sender


def check():
    """Paper 01's M8 to M10; the sender's leaves are the receiver's but for the path's end; honest and damaged batches at every width, and
    keys that aren't usable."""
    assert [key for key in range(4) if not usable(key)] == [0, 1]
    check_columns(2, [1, 0, 1, 1], 1, 1, [(2, 3)])
    check_columns(2, [1, 1, 1, 1], 0, 0, [(3, 0)])
    check_columns(1, [0, 1], 1, 1, [(0, 1), (1, 0)])
    rng = random.Random(15)
    for width in WIDTHS:
        roots, delta = rng.randbytes(sizes.roots_length(width)), rng.randbytes(sizes.delta_length(width))
        mine = sender_leaves(width, delta, setup.beside_paths(width, delta, roots))
        for i, tree in enumerate(receiver_leaves(width, roots)):
            assert tree == list(enumerate(setup.tree(setup.node_at(roots, i), width)[-1]))
            d = setup.delta_of(width, delta, i)
            assert sorted(mine[i]) == tree[:d] + tree[d + 1:]
        check_honest(rng, width, rng.randrange(1, 1 << 64), 1)
        check_honest(rng, width, rng.randrange(1, 1 << 64), rng.randrange(2, 5))
        for given in (delta, bytes(len(delta)), b"\xff" * len(delta)):
            check_damaged(rng, width, rng.randrange(1, 1 << 64), 1, given)
        check_weak_keys(rng, width, rng.randrange(1, 1 << 64), 1)
