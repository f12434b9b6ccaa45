"""Both setups, for any inputs: paper 01, 'Trees and streams' and 'Steps and their turning away'.

The paper's chooser is the receiver here, its keeper the sender, D is delta and the kept table is the siblings.
"""

import random

import chacha20
import sizes

WIDTHS = (1, 2, 4, 8)
NODE = 32

DONE, WIDTH, LENGTH = 0, 1, 5


def xor(nodes):
    value = 0
    for node in nodes:
        assert len(node) == NODE
        value ^= int.from_bytes(node, "little")
    return value.to_bytes(NODE, "little")


def children(node):
    """The left child, then the right one."""
    block = chacha20.block(node, 0, chacha20.nonce(0, 0))
    return [block[:NODE], block[NODE:]]


def tree(root, width):
    """The nodes of each depth from the left: the children made at level l are those of depth l + 1."""
    depths = [[root]]
    for _ in range(width):
        made = chacha20.blocks(depths[-1], 0, chacha20.nonce(0, 0))
        depths.append([child for block in made for child in (block[:NODE], block[NODE:])])
    return depths


def node_at(data, number):
    return data[NODE * number:NODE * number + NODE]


def delta_of(width, delta, i):
    """The number of tree i in the secret."""
    bits = [delta[c // 8] >> c % 8 & 1 for c in range(i * width, i * width + width)]
    return sum(bit << b for b, bit in enumerate(bits))


def path(width, d):
    """The side that the path of d takes at each level: its highest bit first."""
    return [d >> (width - 1 - level) & 1 for level in range(width)]


def beside(width, d):
    """The numbers of the nodes beside the path of d, each in its depth, for depths 1 to the width."""
    numbers, at = [], 0
    for bit in path(width, d):
        numbers.append(2 * at + 1 - bit)
        at = 2 * at + bit
    return numbers


# The lengths that the ranges of a step must have, in the order of its parameters.

def receiver_setup_lengths(width):
    """Roots, base pads, message."""
    return [sizes.roots_length(width), sizes.receiver_base_pads_length(width), sizes.setup_message_length(width)]


def sender_setup_lengths(width):
    """Delta, base pads, message, siblings."""
    return [sizes.delta_length(width), sizes.sender_base_pads_length(width), sizes.setup_message_length(width),
            sizes.siblings_length(width)]


# The steps. Each gives the answer's number and what the range out then holds.

def receiver_setup(width, roots, base_pads, message):
    if width not in WIDTHS:
        return WIDTH, message
    if [len(roots), len(base_pads), len(message)] != receiver_setup_lengths(width):
        return LENGTH, message
    out = b""
    for i in range(sizes.trees_of(width)):
        depths = tree(node_at(roots, i), width)
        for level in range(width):
            transfer = i * width + level
            for side in (0, 1):
                out += xor(depths[level + 1][side::2] + [node_at(base_pads, 2 * transfer + side)])
    return DONE, out


def tree_siblings(width, d, totals, pads):
    """The nodes that the sender finds in one tree, from its masked totals (two a level) and its pads (one a level)."""
    found = []
    known = [None]  # the nodes of a depth from the left, None on the path
    at = 0
    for level, bit in enumerate(path(width, d)):
        below = [child for node in known for child in (children(node) if node is not None else [None, None])]
        side = 1 - bit
        mine = [node for node in below[side::2] if node is not None]
        node = xor([totals[2 * level + side], pads[level]] + mine)
        below[2 * at + side] = node
        found.append(node)
        known = below
        at = 2 * at + bit
    return found


def sender_setup(width, delta, base_pads, message, siblings):
    if width not in WIDTHS:
        return WIDTH, siblings
    if [len(delta), len(base_pads), len(message), len(siblings)] != sender_setup_lengths(width):
        return LENGTH, siblings
    out = b""
    for i in range(sizes.trees_of(width)):
        first = i * width
        totals = [node_at(message, 2 * first + x) for x in range(2 * width)]
        pads = [node_at(base_pads, first + level) for level in range(width)]
        out += b"".join(tree_siblings(width, delta_of(width, delta, i), totals, pads))
    return DONE, out


# What an honest setup has.

def sender_pads(width, delta, base_pads):
    """Of each base transfer's two pads the one numbered 1 minus the path bit."""
    out = b""
    for i in range(sizes.trees_of(width)):
        for level, bit in enumerate(path(width, delta_of(width, delta, i))):
            out += node_at(base_pads, 2 * (i * width + level) + 1 - bit)
    return out


def beside_paths(width, delta, roots):
    """The nodes beside the paths, read from the receiver's whole trees."""
    out = b""
    for i in range(sizes.trees_of(width)):
        depths = tree(node_at(roots, i), width)
        for level, number in enumerate(beside(width, delta_of(width, delta, i))):
            out += depths[level + 1][number]
    return out


def check():
    """Paper 01's M11; and that an honest setup leaves the sender with the nodes beside its paths, at every width."""
    assert path(4, 4) == [0, 1, 0, 0]
    assert beside(4, 4) == [1, 0, 3, 5]
    assert [1 - bit for bit in path(4, 4)] == [1, 0, 1, 1]
    rng = random.Random(11)
    for width in WIDTHS:
        roots, pads = rng.randbytes(sizes.roots_length(width)), rng.randbytes(sizes.receiver_base_pads_length(width))
        delta = rng.randbytes(sizes.delta_length(width))
        answer, message = receiver_setup(width, roots, pads, bytes(sizes.setup_message_length(width)))
        assert answer == DONE
        mine = sender_pads(width, delta, pads)
        answer, siblings = sender_setup(width, delta, mine, message, bytes(sizes.siblings_length(width)))
        assert (answer, siblings) == (DONE, beside_paths(width, delta, roots))
