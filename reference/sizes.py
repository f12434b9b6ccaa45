"""The columns, the trees, and the length of every byte range that a step is lent: paper 01, 'Words and layouts' and 'Steps and their
turning away'; of a batch on file, paper 02, notes 1, 3 and 4.

Each is a function of the width, and in a batch of the blocks, also where it is the same for every width, except what stands in a file
before its width is known. A size stands nowhere else.
"""


def columns(width):
    """A table has 128 columns, each with a base transfer of its own."""
    return 128


def trees_of(width):
    """There are n = 128/k trees."""
    return columns(width) // width


# The setups.

def delta_length(width):
    """D: 16, a bit for each column. A row value is ordered as D is, and as long."""
    return columns(width) // 8


def roots_length(width):
    """Roots: 32 × n."""
    return 32 * trees_of(width)


def receiver_base_pads_length(width):
    """The chooser's base pads: 8,192, two for each base transfer."""
    return 64 * columns(width)


def sender_base_pads_length(width):
    """The keeper's base pads: 4,096, one for each base transfer."""
    return 32 * columns(width)


def setup_message_length(width):
    """The setup message: 8,192, two masked totals for each base transfer."""
    return 64 * columns(width)


def siblings_length(width):
    """The kept table: 4,096, a node for each base transfer."""
    return 32 * columns(width)


# A batch of P blocks.

def column_length(width, blocks):
    """A column, as u_0 is one: L = 8 × (P+1)."""
    return 8 * (blocks + 1)


def table_length(width, blocks):
    """V and W: 128 × L."""
    return columns(width) * column_length(width, blocks)


def correction_length(width, blocks):
    """The correction: (n−1) × L."""
    return (trees_of(width) - 1) * column_length(width, blocks)


def check_message_length(width):
    """The check message: 1,032, the fold of u_0, then of each column."""
    return 8 * (1 + columns(width))


def transfers(width, blocks):
    """P blocks of 64 transfers each."""
    return 64 * blocks


def receiver_pads_length(width, blocks):
    """The chooser's pads: 2,048 × P, one for each transfer."""
    return 32 * transfers(width, blocks)


def sender_pads_length(width, blocks):
    """The keeper's pads: 4,096 × P, two for each transfer."""
    return 64 * transfers(width, blocks)


# A batch on file.

def contents_length(count):
    """The count: 4, then for each entry its kind, offset and length: 4 each."""
    return 4 + 12 * count


def head_length():
    """The head: 10, of which the width has 1, the blocks 1 and the batch 8."""
    return 1 + 1 + 8


def short_head_length():
    """The head that paper 02, note 1 has: 6, with 4 bytes for the batch."""
    return 1 + 1 + 4


def key_length(width):
    """The key: 8."""
    return 8


def file_length(width, blocks, setup):
    """A file that is written, with a setup of this length, where 0 means none: its contents, the setup, the head, the correction, the key
    and the check message."""
    return (contents_length(5 if setup else 4) + setup + head_length() + correction_length(width, blocks) + key_length(width)
            + check_message_length(width))
