//! Calls of the writer that would be done, but for numbers, lengths and keys altered at random; and what reading a file found, written
//! again. What the library writes it must read.

use crate::call::{Call, Step};
use crate::compare::Comparison;
use crate::draw;
use crate::library::{File, Record};
use crate::random::Random;
use crate::twin::setup::DONE;
use crate::twin::sizes;

/// Where the setup, the key and the file are among the ranges; all before the file's are bodies.
const SETUP: usize = 0;
const KEY: usize = 2;
const FILE: usize = 4;

/// One call, with mostly one or two things altered.
pub fn play(comparison: &mut Comparison) {
    let random = &mut comparison.random;
    let mut call = right(random);
    for _ in 0..random.pick(&[0, 1, 1, 1, 2, 2, 3]) {
        alter(random, &mut call);
    }
    written(comparison, &call);
}

/// Writes what the library found in a file. One with a long head must come to the same bytes.
pub fn again(comparison: &mut Comparison, file: &[u8], found: File) {
    let [setup, head, correction, key, check] = found.bodies(file).map(<[u8]>::to_vec);
    let (long, ranges) = (head.len() == sizes::head_length(), vec![setup, correction, key, check, vec![]]);
    let mut call = call_of(found.width, found.blocks, found.batch, ranges);
    fit(&mut call);
    let file_now = written(comparison, &call);
    let right = file_now.map_or(false, |now| !long || now == file);
    comparison.expect(right, "file", &|| call.told(), "what was read is not written, or to other bytes");
    comparison.written_again(long);
}

/// What the library wrote, if it was done: it must read it, with the values and bodies of the call.
fn written(comparison: &mut Comparison, call: &Call) -> Option<Vec<u8>> {
    let file = comparison.write(call)?;
    let found = comparison.read(&file);
    let [setup, _, correction, key, check] = found.bodies(&file);
    let values = (found.answer, found.width, found.blocks, found.batch);
    let right = values == (DONE, call.width, call.blocks, call.batch) && call.ranges[..FILE] == [setup, correction, key, check];
    comparison.expect(right, "found", &|| call.told(), "what was written is read as another batch");
    Some(file)
}

fn call_of(width: u32, blocks: u32, batch: u64, ranges: Vec<Vec<u8>>) -> Call {
    Call {
        step: Step::FileWrite,
        record: Record::default(),
        width,
        batch,
        blocks,
        key: 0,
        ranges,
    }
}

/// A call that is done, with a setup or without.
fn right(random: &mut Random) -> Call {
    let (width, blocks) = (draw::allowed_width(random), draw::allowed_blocks(random));
    let batch = draw::batch_above(random, 0);
    let lengths = Step::FileWrite.lengths(width, blocks).into_iter();
    let mut call = call_of(width, blocks, batch, lengths.map(|length| random.bytes(length)).collect());
    call.ranges[KEY] = draw::usable_key(random).to_le_bytes().to_vec();
    if random.one_in(2) {
        call.ranges[SETUP].clear();
        fit(&mut call);
    }
    call
}

/// The file's range gets the length that these bodies ask for.
fn fit(call: &mut Call) {
    let (bodies, entries) = (&call.ranges[..FILE], 4 + usize::from(!call.ranges[SETUP].is_empty()));
    let length = sizes::contents_length(entries) + sizes::head_length() + bodies.iter().map(Vec::len).sum::<usize>();
    call.ranges[FILE].resize(length, 0x5a);
}

/// Alters a number, the key or a length. Where it is a body's, the file's range may follow, so that it isn't that which is refused.
fn alter(random: &mut Random, call: &mut Call) {
    match random.below(10) {
        0 => {
            let (allowed, wrong) = (draw::allowed_width(random), draw::wrong_width(random));
            return call.width = other_number(random, call.width, allowed, wrong);
        }
        1 => {
            let (allowed, wrong) = (draw::allowed_blocks(random), draw::wrong_blocks(random));
            return call.blocks = other_number(random, call.blocks, allowed, wrong);
        }
        2 => return call.batch = draw::batch_near(random, 0),
        3 | 4 => return other_file(random, call),
        5 => return call.ranges[KEY] = draw::weak_key(random).to_le_bytes().to_vec(),
        6 => other_setup(random, call),
        7 => exchange(random, call),
        8 => as_asked(call),
        _ => draw::wrong_length(random, call),
    }
    if random.one_in(2) {
        fit(call);
    }
}

/// One of these two, or one that looks like the number now where it is cut to a byte, or to more bits.
fn other_number(random: &mut Random, now: u32, allowed: u32, wrong: u32) -> u32 {
    let beyond = now ^ 1 << (8 + random.below(24));
    random.pick(&[allowed, wrong, beyond])
}

/// The setup is absent, or has another length.
fn other_setup(random: &mut Random, call: &mut Call) {
    let (right, other) = (sizes::setup_message_length(call.width as usize), random.below(20001));
    let length = random.pick(&[0, 0, 1, right / 2, right - 1, right, right + 1, other]);
    call.ranges[SETUP].resize(length, 0x5a);
}

/// The file's range has another length: by a byte, by what a long head has more, by an entry or by a setup with its entry.
fn other_file(random: &mut Random, call: &mut Call) {
    let (now, other) = (call.ranges[FILE].len(), random.below(30001));
    let entry = sizes::contents_length(5) - sizes::contents_length(4);
    let setup = sizes::setup_message_length(call.width as usize);
    let by = random.pick(&[1, 1, sizes::head_length() - sizes::short_head_length(), entry, setup, entry + setup]);
    let length = random.pick(&[now + by, now.saturating_sub(by), now + by, now.saturating_sub(by), 0, other]);
    call.ranges[FILE].resize(length, 0x5a);
}

/// A body has a byte less, and another one more, so that all together are as long as before.
fn exchange(random: &mut Random, call: &mut Call) {
    let (from, to) = (random.below(FILE), random.below(FILE));
    if call.ranges[from].pop().is_some() {
        call.ranges[to].push(0x5a);
    }
}

/// All ranges have the lengths that the numbers ask for, also those that aren't allowed.
fn as_asked(call: &mut Call) {
    for (range, length) in call.ranges.iter_mut().zip(call.step.lengths(call.width, call.blocks)) {
        range.resize(length, 0x5a);
    }
}
