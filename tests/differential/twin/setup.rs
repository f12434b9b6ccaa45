//! Both setups, for any inputs: paper 01, 'Trees and streams' and 'Steps and their turning away'.
//!
//! The paper's chooser is the receiver here, its keeper the sender, D is delta and the kept table is the siblings.

use super::{chacha20, sizes};

pub const WIDTHS: [u32; 4] = [1, 2, 4, 8];
pub const NODE: usize = 32;
pub type Node = [u8; NODE];

pub const DONE: u32 = 0;
pub const WIDTH: u32 = 1;
pub const LENGTH: u32 = 5;

pub fn xor_into(sum: &mut [u8], added: &[u8]) {
    assert_eq!(sum.len(), added.len());
    for (x, y) in sum.iter_mut().zip(added) {
        *x ^= y;
    }
}

/// The left child, then the right one.
pub fn children(node: &Node) -> [Node; 2] {
    let block = chacha20::block(node, 0, &chacha20::nonce(0, 0));
    [node_at(&block, 0), node_at(&block, 1)]
}

/// The nodes of each depth from the left: the children made at level l are those of depth l + 1.
pub fn tree(root: Node, width: usize) -> Vec<Vec<Node>> {
    let mut depths = vec![vec![root]];
    for level in 0..width {
        depths.push(depths[level].iter().flat_map(children).collect());
    }
    depths
}

pub fn node_at(data: &[u8], number: usize) -> Node {
    data[NODE * number..NODE * number + NODE].try_into().unwrap()
}

/// The number of tree i in the secret.
pub fn delta_of(width: usize, delta: &[u8], i: usize) -> usize {
    (0..width).map(|b| bit(delta, i * width + b) << b).sum()
}

/// Bit c of a range: paper 01, 'Words and layouts'.
pub fn bit(data: &[u8], c: usize) -> usize {
    usize::from(data[c / 8] >> (c % 8) & 1)
}

/// The side that the path of d takes at each level: its highest bit first.
pub fn path(width: usize, d: usize) -> Vec<usize> {
    (0..width).map(|level| d >> (width - 1 - level) & 1).collect()
}

// The lengths that the ranges of a step must have, in the order of its parameters.

/// Roots, base pads, message.
pub fn receiver_setup_lengths(width: usize) -> [usize; 3] {
    [
        sizes::roots_length(width),
        sizes::receiver_base_pads_length(width),
        sizes::setup_message_length(width),
    ]
}

/// Delta, base pads, message, siblings.
pub fn sender_setup_lengths(width: usize) -> [usize; 4] {
    [
        sizes::delta_length(width),
        sizes::sender_base_pads_length(width),
        sizes::setup_message_length(width),
        sizes::siblings_length(width),
    ]
}

// The steps.

pub fn receiver_setup(width: u32, ranges: [&[u8]; 3]) -> (u32, Vec<Vec<u8>>) {
    if !WIDTHS.contains(&width) {
        return (WIDTH, vec![]);
    }
    let width = width as usize;
    if ranges.map(<[u8]>::len) != receiver_setup_lengths(width) {
        return (LENGTH, vec![]);
    }
    let [roots, base_pads, _] = ranges;
    let mut out = vec![];
    for i in 0..sizes::trees_of(width) {
        let depths = tree(node_at(roots, i), width);
        for level in 0..width {
            for side in [0, 1] {
                let mut total = node_at(base_pads, 2 * (i * width + level) + side);
                depths[level + 1]
                    .iter()
                    .skip(side)
                    .step_by(2)
                    .for_each(|node| xor_into(&mut total, node));
                out.extend(total);
            }
        }
    }
    (DONE, vec![out])
}

/// The nodes that the sender finds in one tree, from its masked totals (two a level) and its pads (one a level).
fn tree_siblings(width: usize, d: usize, totals: &[u8], pads: &[u8]) -> Vec<u8> {
    let mut found = vec![];
    let mut known: Vec<Option<Node>> = vec![None]; // the nodes of a depth from the left, none on the path
    let mut at = 0;
    for (level, bit) in path(width, d).into_iter().enumerate() {
        let mut below: Vec<Option<Node>> = known
            .iter()
            .flat_map(|node| node.as_ref().map_or([None; 2], |node| children(node).map(Some)))
            .collect();
        let side = 1 - bit;
        let mut node = node_at(totals, 2 * level + side);
        xor_into(&mut node, &node_at(pads, level));
        below
            .iter()
            .skip(side)
            .step_by(2)
            .flatten()
            .for_each(|mine| xor_into(&mut node, mine));
        below[2 * at + side] = Some(node);
        found.extend(node);
        known = below;
        at = 2 * at + bit;
    }
    found
}

pub fn sender_setup(width: u32, ranges: [&[u8]; 4]) -> (u32, Vec<Vec<u8>>) {
    if !WIDTHS.contains(&width) {
        return (WIDTH, vec![]);
    }
    let width = width as usize;
    if ranges.map(<[u8]>::len) != sender_setup_lengths(width) {
        return (LENGTH, vec![]);
    }
    let [delta, base_pads, message, _] = ranges;
    let trees = message.chunks(2 * NODE * width).zip(base_pads.chunks(NODE * width)).enumerate();
    let out = trees.flat_map(|(i, (totals, pads))| tree_siblings(width, delta_of(width, delta, i), totals, pads));
    (DONE, vec![out.collect()])
}

/// What an honest setup has: of each base transfer's two pads the one numbered 1 minus the path bit.
pub fn sender_pads(width: usize, delta: &[u8], base_pads: &[u8]) -> Vec<u8> {
    let mut out = vec![];
    for i in 0..sizes::trees_of(width) {
        for (level, bit) in path(width, delta_of(width, delta, i)).into_iter().enumerate() {
            out.extend(node_at(base_pads, 2 * (i * width + level) + 1 - bit));
        }
    }
    out
}
