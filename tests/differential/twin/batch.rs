//! A batch's steps, for any inputs: paper 01, 'Trees and streams', 'Folding and pads' and 'Steps and their turning away'; which keys are
//! usable, paper 02, note 5.
//!
//! The names are those of setup.rs. Of the paper's letters, u_0 is the choices, V the receiver's table and W the sender's.

use super::setup::{bit, children, delta_of, node_at, path, xor_into, Node, DONE, LENGTH, NODE, WIDTH, WIDTHS};
use super::{chacha20, gf64, sha256, sizes};
use crate::library::Record;

pub const STAGE: u32 = 2;
pub const BATCH: u32 = 3;
pub const BLOCKS: u32 = 4;
pub const CHECK: u32 = 6;
pub const WEAK_KEY: u32 = 9;

pub const READY: u32 = 0;
pub const OPEN: u32 = 1;
pub const CLOSED: u32 = 2;

// Leaves and their streams. A tree is a list of pairs: a node's or leaf's number in its depth, and the node or the leaf's stream.

type Nodes = Vec<(usize, Node)>;
type Streams = Vec<(usize, Vec<u8>)>;

/// The numbered nodes one depth further down.
fn below(nodes: &Nodes) -> Nodes {
    let mut out = vec![];
    for (number, node) in nodes {
        let [left, right] = children(node);
        out.extend([(2 * number, left), (2 * number + 1, right)]);
    }
    out
}

/// Every leaf of a tree.
fn receiver_leaves(width: usize, root: Node) -> Nodes {
    (0..width).fold(vec![(0, root)], |nodes, _| below(&nodes))
}

/// The leaves that the nodes beside the path of d lead to: all but the one at the path's end.
fn sender_leaves(width: usize, d: usize, siblings: &[u8]) -> Nodes {
    let (mut nodes, mut at) = (vec![], 0);
    for (level, bit) in path(width, d).into_iter().enumerate() {
        nodes = below(&nodes);
        nodes.push((2 * at + 1 - bit, node_at(siblings, level)));
        at = 2 * at + bit;
    }
    nodes
}

/// The pairs of a leaf's number y and its stream F(y).
fn streams(leaves: &Nodes, batch: u64, length: usize) -> Streams {
    let stream = |node| {
        let halves = [0, 1].map(|counter| chacha20::block(node, counter, &chacha20::nonce(1, batch)));
        halves.concat()[..length].to_vec()
    };
    leaves.iter().map(|(y, node)| (*y, stream(node))).collect()
}

// Sums and columns of one tree.

/// The sum of F(y) over the leaves that are asked for.
fn sum(tree: &Streams, length: usize, asked: impl Fn(usize) -> bool) -> Vec<u8> {
    let mut out = vec![0; length];
    tree.iter()
        .filter(|(y, _)| asked(*y))
        .for_each(|(_, stream)| xor_into(&mut out, stream));
    out
}

fn receiver_column(tree: &Streams, length: usize, b: usize) -> Vec<u8> {
    sum(tree, length, |y| y >> b & 1 == 1)
}

fn sender_column(tree: &Streams, length: usize, d: usize, b: usize) -> Vec<u8> {
    sum(tree, length, |y| y != d && (y ^ d) >> b & 1 == 1)
}

// What the steps write.

/// The choices, the receiver's table and the correction.
fn receiver_batch(width: usize, roots: &[u8], batch: u64, length: usize) -> Vec<Vec<u8>> {
    let (mut choices, mut table, mut correction) = (vec![], vec![], vec![]);
    for i in 0..sizes::trees_of(width) {
        let tree = streams(&receiver_leaves(width, node_at(roots, i)), batch, length);
        let mut total = sum(&tree, length, |_| true);
        if i == 0 {
            choices = total;
        } else {
            xor_into(&mut total, &choices);
            correction.extend(total);
        }
        (0..width).for_each(|b| table.extend(receiver_column(&tree, length, b)));
    }
    vec![choices, table, correction]
}

fn sender_table(width: usize, siblings: &[u8], delta: &[u8], batch: u64, length: usize, correction: &[u8]) -> Vec<u8> {
    let mut out = vec![];
    for i in 0..sizes::trees_of(width) {
        let d = delta_of(width, delta, i);
        let tree = streams(&sender_leaves(width, d, &siblings[NODE * width * i..]), batch, length);
        for b in 0..width {
            let mut column = sender_column(&tree, length, d, b);
            if i > 0 && d >> b & 1 == 1 {
                xor_into(&mut column, &correction[length * (i - 1)..length * i]);
            }
            out.extend(column);
        }
    }
    out
}

/// Bit j of each column.
fn row(width: usize, table: &[u8], length: usize, j: usize) -> Vec<u8> {
    let mut out = vec![0; sizes::delta_length(width)];
    for c in 0..sizes::columns(width) {
        out[c / 8] |= (bit(table, 8 * length * c + j) as u8) << (c % 8);
    }
    out
}

/// The row values that get pads.
fn rows(width: usize, blocks: usize, table: &[u8]) -> Vec<Vec<u8>> {
    let length = sizes::column_length(width, blocks);
    (0..sizes::transfers(width, blocks)).map(|j| row(width, table, length, j)).collect()
}

fn pad(batch: u64, j: usize, value: &[u8]) -> [u8; 32] {
    let mut hashed = b"PADS".to_vec();
    hashed.extend(batch.to_le_bytes());
    hashed.extend((j as u32).to_le_bytes());
    hashed.extend(value);
    sha256::digest(&hashed)
}

fn receiver_pads(width: usize, batch: u64, blocks: usize, table: &[u8]) -> Vec<u8> {
    let rows = rows(width, blocks, table);
    rows.iter().enumerate().flat_map(|(j, value)| pad(batch, j, value)).collect()
}

/// Pad 0 before pad 1 in each row.
fn sender_pads(width: usize, batch: u64, blocks: usize, table: &[u8], delta: &[u8]) -> Vec<u8> {
    let mut out = vec![];
    for (j, mut value) in rows(width, blocks, table).into_iter().enumerate() {
        out.extend(pad(batch, j, &value));
        xor_into(&mut value, delta);
        out.extend(pad(batch, j, &value));
    }
    out
}

fn folds(key: u64, table: &[u8], length: usize) -> Vec<u64> {
    table.chunks(length).map(|column| gf64::fold(key, &gf64::words(column))).collect()
}

fn check_message(key: u64, choices: &[u8], table: &[u8]) -> Vec<u8> {
    folds(key, &[choices, table].concat(), choices.len())
        .into_iter()
        .flat_map(u64::to_le_bytes)
        .collect()
}

/// The folds that the check asks for in the columns: in each the fold of W, plus the sent choice fold where delta has the bit.
pub fn accepted_folds(width: usize, key: u64, table: &[u8], delta: &[u8], choice_fold: u64) -> Vec<u64> {
    let mine = folds(key, table, table.len() / sizes::columns(width));
    mine.iter()
        .enumerate()
        .map(|(c, fold)| fold ^ if bit(delta, c) == 1 { choice_fold } else { 0 })
        .collect()
}

fn accepts(width: usize, key: u64, table: &[u8], delta: &[u8], message: &[u8]) -> bool {
    let sent = gf64::words(message);
    sent[1..] == accepted_folds(width, key, table, delta, sent[0])
}

// The lengths that the ranges of a step must have, in the order of its parameters.

/// Roots, choices, table, correction.
pub fn start_lengths(width: usize, blocks: usize) -> [usize; 4] {
    [
        sizes::roots_length(width),
        sizes::column_length(width, blocks),
        sizes::table_length(width, blocks),
        sizes::correction_length(width, blocks),
    ]
}

/// Siblings, delta, correction, table.
pub fn correct_lengths(width: usize, blocks: usize) -> [usize; 4] {
    [
        sizes::siblings_length(width),
        sizes::delta_length(width),
        sizes::correction_length(width, blocks),
        sizes::table_length(width, blocks),
    ]
}

/// Choices, table, message, pads.
pub fn answer_lengths(width: usize, blocks: usize) -> [usize; 4] {
    [
        sizes::column_length(width, blocks),
        sizes::table_length(width, blocks),
        sizes::check_message_length(width),
        sizes::receiver_pads_length(width, blocks),
    ]
}

/// Table, delta, message, pads.
pub fn verify_lengths(width: usize, blocks: usize) -> [usize; 4] {
    [
        sizes::table_length(width, blocks),
        sizes::delta_length(width),
        sizes::check_message_length(width),
        sizes::sender_pads_length(width, blocks),
    ]
}

// The steps.

/// With 0 the fold sees only the last block, and with 1 it can't tell one block from another.
pub fn usable(key: u64) -> bool {
    key >= 2
}

/// The answer of a step on the refusals that the record and the numbers give: in this order, and then the lengths.
fn refusal(record: Record, stage: u32, batch_right: bool, blocks: u32, key_right: bool, lengths_right: impl Fn() -> bool) -> u32 {
    if !WIDTHS.contains(&record.width) {
        WIDTH
    } else if record.stage != stage {
        STAGE
    } else if !batch_right {
        BATCH
    } else if !(1..=15).contains(&blocks) {
        BLOCKS
    } else if !key_right {
        WEAK_KEY
    } else if !lengths_right() {
        LENGTH
    } else {
        DONE
    }
}

/// The answer of a step that opens a batch, which takes no key.
fn opening(record: Record, batch: u64, blocks: u32, lengths: impl Fn(usize, usize) -> [usize; 4], given: [&[u8]; 4]) -> u32 {
    let right = || given.map(<[u8]>::len) == lengths(record.width as usize, blocks as usize);
    refusal(record, READY, batch != 0 && batch > record.last, blocks, true, right)
}

/// The answer of a step that ends a batch, but for the check.
fn ending(record: Record, key: u64, lengths: impl Fn(usize, usize) -> [usize; 4], given: [&[u8]; 4]) -> u32 {
    let right = || given.map(<[u8]>::len) == lengths(record.width as usize, record.blocks as usize);
    refusal(record, OPEN, record.last != 0, record.blocks, usable(key), right)
}

/// The record in a batch.
fn opened(record: Record, batch: u64, blocks: u32) -> Record {
    Record {
        last: batch,
        blocks,
        stage: OPEN,
        ..record
    }
}

/// And after it.
fn ended(record: Record) -> Record {
    Record {
        blocks: 0,
        stage: READY,
        ..record
    }
}

type Given = (u32, Record, Vec<Vec<u8>>);

/// Whatever the record held.
pub fn open_session(record: Record, width: u32) -> Given {
    if !WIDTHS.contains(&width) {
        return (WIDTH, record, vec![]);
    }
    (
        DONE,
        Record {
            width,
            last: 0,
            blocks: 0,
            stage: READY,
        },
        vec![],
    )
}

pub fn receiver_start(record: Record, batch: u64, blocks: u32, ranges: [&[u8]; 4]) -> Given {
    let answer = opening(record, batch, blocks, start_lengths, ranges);
    if answer != DONE {
        return (answer, record, vec![]);
    }
    let width = record.width as usize;
    let written = receiver_batch(width, ranges[0], batch, sizes::column_length(width, blocks as usize));
    (DONE, opened(record, batch, blocks), written)
}

pub fn sender_correct(record: Record, batch: u64, blocks: u32, ranges: [&[u8]; 4]) -> Given {
    let answer = opening(record, batch, blocks, correct_lengths, ranges);
    if answer != DONE {
        return (answer, record, vec![]);
    }
    let (width, [siblings, delta, correction, _]) = (record.width as usize, ranges);
    let length = sizes::column_length(width, blocks as usize);
    let written = sender_table(width, siblings, delta, batch, length, correction);
    (DONE, opened(record, batch, blocks), vec![written])
}

pub fn receiver_answer(record: Record, key: u64, ranges: [&[u8]; 4]) -> Given {
    let answer = ending(record, key, answer_lengths, ranges);
    if answer != DONE {
        return (answer, record, vec![]);
    }
    let [choices, table, ..] = ranges;
    let pads = receiver_pads(record.width as usize, record.last, record.blocks as usize, table);
    (DONE, ended(record), vec![check_message(key, choices, table), pads])
}

pub fn sender_verify(record: Record, key: u64, ranges: [&[u8]; 4]) -> Given {
    let answer = ending(record, key, verify_lengths, ranges);
    if answer != DONE {
        return (answer, record, vec![]);
    }
    let (width, [table, delta, message, _]) = (record.width as usize, ranges);
    if !accepts(width, key, table, delta, message) {
        return (CHECK, Record { stage: CLOSED, ..record }, vec![]);
    }
    let pads = sender_pads(width, record.last, record.blocks as usize, table, delta);
    (DONE, ended(record), vec![pads])
}
