//! A batch on file, for any bytes: paper 02, notes 1, 3, 4 and 5.
//!
//! A file has its contents, then its bodies: of the kinds in order, of which the setup may be absent. The names are those of setup.rs.

use super::batch::{usable, BATCH, BLOCKS, WEAK_KEY};
use super::setup::{DONE, LENGTH, WIDTH, WIDTHS};
use super::sizes;
use crate::library::File;

pub const CONTENTS: u32 = 7;
pub const BODY: u32 = 8;

pub const SETUP: u32 = 1;
pub const HEAD: u32 = 2;
pub const CORRECTION: u32 = 3;
pub const KEY: u32 = 4;
pub const CHECK: u32 = 5;
pub const KINDS: [u32; 5] = [SETUP, HEAD, CORRECTION, KEY, CHECK];

#[derive(Clone, Copy)]
pub struct Entry {
    pub kind: u32,
    pub offset: u32,
    pub length: u32,
}

// Laying a file, also what isn't to be read.

pub fn head_body(width: u8, blocks: u8, batch: u64) -> Vec<u8> {
    [&[width, blocks][..], &batch.to_le_bytes()].concat()
}

pub fn short_head_body(width: u8, blocks: u8, batch: u32) -> Vec<u8> {
    [&[width, blocks][..], &batch.to_le_bytes()].concat()
}

/// A file of these bodies, each with its kind.
pub fn write(bodies: &[(u32, Vec<u8>)]) -> Vec<u8> {
    let mut out = (bodies.len() as u32).to_le_bytes().to_vec();
    let mut offset = sizes::contents_length(bodies.len());
    for (kind, body) in bodies {
        out.extend([*kind, offset as u32, body.len() as u32].map(u32::to_le_bytes).concat());
        offset += body.len();
    }
    bodies.iter().for_each(|(_, body)| out.extend(body));
    out
}

// Reading.

fn number(data: &[u8], at: usize) -> u32 {
    u32::from_le_bytes(data[at..at + 4].try_into().unwrap())
}

/// The entries, or nothing if their count is neither 4 nor 5, or the file ends before they do.
fn entries_in(file: &[u8]) -> Option<Vec<Entry>> {
    if file.len() < 4 {
        return None;
    }
    let count = number(file, 0) as usize;
    if ![4, 5].contains(&count) || file.len() < sizes::contents_length(count) {
        return None;
    }
    let entry = |at| Entry {
        kind: number(file, at),
        offset: number(file, at + 4),
        length: number(file, at + 8),
    };
    Some((0..count).map(|e| entry(sizes::contents_length(e))).collect())
}

/// Whether the kinds are in order, only the setup absent, and the bodies follow without gaps to the file's end. No sum of lengths wraps.
fn contents_right(entries: &[Entry], length: usize) -> bool {
    let kinds: Vec<u32> = entries.iter().map(|entry| entry.kind).collect();
    if kinds != KINDS && kinds != KINDS[1..] {
        return false;
    }
    let mut end = sizes::contents_length(entries.len()) as u64;
    for entry in entries {
        if u64::from(entry.offset) != end {
            return false;
        }
        end += u64::from(entry.length);
    }
    end == length as u64
}

/// Whether a head of this length is looked at.
pub fn head_length_right(length: usize) -> bool {
    [sizes::head_length(), sizes::short_head_length()].contains(&length)
}

/// The number that 8 bytes or fewer hold.
fn long(bytes: &[u8]) -> u64 {
    bytes.iter().rev().fold(0, |value, byte| value << 8 | u64::from(*byte))
}

/// The values of a head of either length.
fn head_in(head: &[u8]) -> (u32, u32, u64) {
    (u32::from(head[0]), u32::from(head[1]), long(&head[2..]))
}

/// The length that a body has, by its kind; of a head the longer one.
pub fn body_length(width: usize, blocks: usize, kind: u32) -> usize {
    match kind {
        SETUP => sizes::setup_message_length(width),
        HEAD => sizes::head_length(),
        CORRECTION => sizes::correction_length(width, blocks),
        KEY => sizes::key_length(width),
        CHECK => sizes::check_message_length(width),
        _ => panic!("no such kind"),
    }
}

/// The answer that the head and the other bodies get, each given with its kind, and the head's values.
fn answer_to(head: &[u8], others: &[(u32, &[u8])]) -> (u32, u32, u32, u64) {
    if !head_length_right(head.len()) {
        return (BODY, 0, 0, 0);
    }
    let (width, blocks, batch) = head_in(head);
    (answer_by(width, blocks, batch, others), width, blocks, batch)
}

/// The answer that the head's values get, and then the other bodies.
fn answer_by(width: u32, blocks: u32, batch: u64, others: &[(u32, &[u8])]) -> u32 {
    let length_right = |kind, body: &[u8]| body.len() == body_length(width as usize, blocks as usize, kind);
    if !WIDTHS.contains(&width) {
        WIDTH
    } else if batch == 0 {
        BATCH
    } else if !(1..=15).contains(&blocks) {
        BLOCKS
    } else if !others.iter().all(|(kind, body)| length_right(*kind, body)) {
        BODY
    } else if others.iter().any(|(kind, body)| *kind == KEY && !usable(long(body))) {
        WEAK_KEY
    } else {
        DONE
    }
}

/// An absent setup begins where the head does. Of a file that is refused nothing is handed out: the head's values are 0, and every place
/// is the file's end.
pub fn read(file: &[u8]) -> File {
    let entries = match entries_in(file).filter(|entries| contents_right(entries, file.len())) {
        Some(entries) => entries,
        None => return refused(CONTENTS, file),
    };
    let place = |kind| entries.iter().find(|entry| entry.kind == kind).map(|entry| u64::from(entry.offset));
    let body = |entry: &Entry| &file[entry.offset as usize..(entry.offset + entry.length) as usize];
    let bodies: Vec<(u32, &[u8])> = entries.iter().map(|entry| (entry.kind, body(entry))).collect();
    let (heads, others): (Vec<_>, Vec<_>) = bodies.into_iter().partition(|(kind, _)| *kind == HEAD);
    let (answer, width, blocks, batch) = answer_to(heads[0].1, &others);
    if answer != DONE {
        return refused(answer, file);
    }
    let head = place(HEAD).unwrap();
    File {
        answer,
        width,
        blocks,
        batch,
        setup: place(SETUP).unwrap_or(head),
        head,
        correction: place(CORRECTION).unwrap(),
        key: place(KEY).unwrap(),
        check: place(CHECK).unwrap(),
        end: file.len() as u64,
    }
}

fn refused(answer: u32, file: &[u8]) -> File {
    let end = file.len() as u64;
    File {
        answer,
        width: 0,
        blocks: 0,
        batch: 0,
        setup: end,
        head: end,
        correction: end,
        key: end,
        check: end,
        end,
    }
}

// Writing, always with the long head.

/// Setup, correction, key, check, file.
pub fn write_lengths(width: usize, blocks: usize) -> [usize; 5] {
    let [setup, correction, key, check] = [SETUP, CORRECTION, KEY, CHECK].map(|kind| body_length(width, blocks, kind));
    [setup, correction, key, check, sizes::file_length(width, blocks, setup)]
}

/// A setup without bytes is none.
pub fn write_batch(width: u32, blocks: u32, batch: u64, ranges: [&[u8]; 5]) -> (u32, Vec<Vec<u8>>) {
    let [setup, correction, key, check, file] = ranges;
    let mut bodies = vec![(CORRECTION, correction), (KEY, key), (CHECK, check)];
    if !setup.is_empty() {
        bodies.push((SETUP, setup));
    }
    let answer = answer_by(width, blocks, batch, &bodies);
    if answer != DONE {
        return (answer, vec![]);
    }
    if file.len() != sizes::file_length(width as usize, blocks as usize, setup.len()) {
        return (LENGTH, vec![]);
    }
    let mut bodies: Vec<(u32, Vec<u8>)> = bodies.into_iter().map(|(kind, body)| (kind, body.to_vec())).collect();
    bodies.push((HEAD, head_body(width as u8, blocks as u8, batch)));
    bodies.sort();
    (DONE, vec![write(&bodies)])
}
