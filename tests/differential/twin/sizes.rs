//! The columns, the trees, and the length of every byte range that a step is lent: paper 01, 'Words and layouts' and 'Steps and their
//! turning away'; of a batch on file, paper 02, notes 1, 3 and 4.
//!
//! Each is a function of the width, and in a batch of the blocks, also where it is the same for every width, except what stands in a file
//! before its width is known. A size stands nowhere else.

/// A table has 128 columns, each with a base transfer of its own.
pub fn columns(_width: usize) -> usize {
    128
}

/// There are n = 128/k trees.
pub fn trees_of(width: usize) -> usize {
    columns(width) / width
}

// The setups.

/// D: 16, a bit for each column. A row value is ordered as D is, and as long.
pub fn delta_length(width: usize) -> usize {
    columns(width) / 8
}

/// Roots: 32 × n.
pub fn roots_length(width: usize) -> usize {
    32 * trees_of(width)
}

/// The chooser's base pads: 8,192, two for each base transfer.
pub fn receiver_base_pads_length(width: usize) -> usize {
    64 * columns(width)
}

/// The keeper's base pads: 4,096, one for each base transfer.
pub fn sender_base_pads_length(width: usize) -> usize {
    32 * columns(width)
}

/// The setup message: 8,192, two masked totals for each base transfer.
pub fn setup_message_length(width: usize) -> usize {
    64 * columns(width)
}

/// The kept table: 4,096, a node for each base transfer.
pub fn siblings_length(width: usize) -> usize {
    32 * columns(width)
}

// A batch of P blocks.

/// A column, as u_0 is one: L = 8 × (P+1).
pub fn column_length(_width: usize, blocks: usize) -> usize {
    8 * (blocks + 1)
}

/// V and W: 128 × L.
pub fn table_length(width: usize, blocks: usize) -> usize {
    columns(width) * column_length(width, blocks)
}

/// The correction: (n−1) × L.
pub fn correction_length(width: usize, blocks: usize) -> usize {
    (trees_of(width) - 1) * column_length(width, blocks)
}

/// The check message: 1,032, the fold of u_0, then of each column.
pub fn check_message_length(width: usize) -> usize {
    8 * (1 + columns(width))
}

/// P blocks of 64 transfers each.
pub fn transfers(_width: usize, blocks: usize) -> usize {
    64 * blocks
}

/// The chooser's pads: 2,048 × P, one for each transfer.
pub fn receiver_pads_length(width: usize, blocks: usize) -> usize {
    32 * transfers(width, blocks)
}

/// The keeper's pads: 4,096 × P, two for each transfer.
pub fn sender_pads_length(width: usize, blocks: usize) -> usize {
    64 * transfers(width, blocks)
}

// A batch on file.

/// The count: 4, then for each entry its kind, offset and length: 4 each.
pub fn contents_length(count: usize) -> usize {
    4 + 12 * count
}

/// The head: 10, of which the width has 1, the blocks 1 and the batch 8.
pub fn head_length() -> usize {
    1 + 1 + 8
}

/// The head that paper 02, note 1 has: 6, with 4 bytes for the batch.
pub fn short_head_length() -> usize {
    1 + 1 + 4
}

/// The key: 8.
pub fn key_length(_width: usize) -> usize {
    8
}

/// A file that is written, with a setup of this length, where 0 means none: its contents, the setup, the head, the correction, the key and
/// the check message.
pub fn file_length(width: usize, blocks: usize, setup: usize) -> usize {
    let contents = contents_length(if setup > 0 { 5 } else { 4 });
    contents + setup + head_length() + correction_length(width, blocks) + key_length(width) + check_message_length(width)
}
