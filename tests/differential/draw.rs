//! Numbers and lengths as the plays draw them: those that are allowed, and those beside them.

use crate::call::{Call, Step};
use crate::library::Record;
use crate::random::Random;
use crate::twin::batch::{OPEN, READY};
use crate::twin::setup::WIDTHS;

const MOST: u32 = u32::MAX;

fn any(random: &mut Random) -> u32 {
    random.number() as u32
}

pub fn allowed_width(random: &mut Random) -> u32 {
    random.pick(&WIDTHS)
}

pub fn wrong_width(random: &mut Random) -> u32 {
    let other = any(random).max(9);
    random.pick(&[0, 3, 5, 6, 7, 9, 16, 256, 1 << 31, MOST, other])
}

pub fn width(random: &mut Random) -> u32 {
    if random.one_in(6) {
        wrong_width(random)
    } else {
        allowed_width(random)
    }
}

pub fn allowed_blocks(random: &mut Random) -> u32 {
    1 + random.below(15) as u32
}

pub fn wrong_blocks(random: &mut Random) -> u32 {
    let other = any(random).max(16);
    random.pick(&[0, 16, 17, 256, MOST, other])
}

pub fn blocks(random: &mut Random) -> u32 {
    if random.one_in(6) {
        wrong_blocks(random)
    } else {
        allowed_blocks(random)
    }
}

/// A number of any length: of those of 64 bits alone hardly one would be below 2^32.
fn any_batch(random: &mut Random) -> u64 {
    random.number() >> random.below(64)
}

/// A number on either side of 0, 2^32 or 2^63: below 0 are the highest, so these are the places where a width or a sign would matter.
fn edge_batch(random: &mut Random) -> u64 {
    let edge: u64 = random.pick(&[0, 1 << 32, 1 << 63]);
    edge.wrapping_add(random.below(5) as u64).wrapping_sub(2)
}

/// Each half goes by the last number's, apart from the other: so the lower one may say what the upper one denies.
fn halves_near(random: &mut Random, last: u64) -> u64 {
    let [upper, lower] = [last >> 32, last].map(|half| {
        let (half, other) = (half as u32, any(random));
        u64::from(random.pick(&[half, half, half.wrapping_sub(1), half.wrapping_add(1), 0, other]))
    });
    upper << 32 | lower
}

/// A batch number that the last one matters for.
pub fn batch_near(random: &mut Random, last: u64) -> u64 {
    let (edge, halves, other) = (edge_batch(random), halves_near(random, last), any_batch(random));
    random.pick(&[0, last, last.wrapping_sub(1), last.wrapping_add(1), edge, halves, halves, other])
}

/// A batch number that is allowed, if there is one. Most are the next, so that a session seldom comes to the end of all numbers.
pub fn batch_above(random: &mut Random, last: u64) -> u64 {
    let (edge, halves, other) = (edge_batch(random), halves_near(random, last), any_batch(random));
    let next = last.saturating_add(random.pick(&[1, 1, 1, 2, 1000, 1 << 24, 1 << 32]));
    let drawn = random.pick(&[next, next, next, next, edge, halves, other]);
    drawn.max(last.saturating_add(1))
}

/// Two batch numbers that differ in the upper half alone: a stream that goes by the lower one would come twice.
pub fn batches_apart(random: &mut Random) -> [u64; 2] {
    let first = batch_above(random, 0);
    loop {
        let by = (any(random) >> random.below(32)).max(1);
        let other = first ^ u64::from(by) << 32;
        if other != 0 {
            return [first, other];
        }
    }
}

/// A key that isn't usable.
pub fn weak_key(random: &mut Random) -> u64 {
    random.pick(&[0, 1])
}

/// One that is: among the first or the highest, or one of which some bytes alone, or all in the other order, would be 0 or 1; or any.
pub fn usable_key(random: &mut Random) -> u64 {
    let (byte, other) = (1 << (8 * (1 + random.below(7))), random.number().max(2));
    random.pick(&[2, 3, byte, byte, byte + 1, 1 << 63, u64::MAX, other, other, other, other, other])
}

/// One in eight isn't usable.
pub fn key(random: &mut Random) -> u64 {
    if random.one_in(8) {
        weak_key(random)
    } else {
        usable_key(random)
    }
}

/// Mostly in the stage that the step needs.
pub fn record(random: &mut Random, step: Step) -> Record {
    let (edge, other, second, third) = (edge_batch(random), any_batch(random), any(random), any(random));
    let needed = if matches!(step, Step::ReceiverAnswer | Step::SenderVerify) {
        OPEN
    } else {
        READY
    };
    Record {
        width: width(random),
        blocks: if random.one_in(8) { second } else { blocks(random) },
        last: random.pick(&[0, 1, 1000, edge, edge, other, other, other]),
        stage: random.pick(&[needed, needed, needed, needed, needed, needed, 0, 1, 2, 3, third]),
    }
}

/// Lends one of the ranges, if there is one, in a length that is mostly wrong.
pub fn wrong_length(random: &mut Random, call: &mut Call) {
    if call.ranges.is_empty() {
        return;
    }
    let at = random.below(call.ranges.len());
    let right = call.ranges[at].len();
    let (width, blocks) = call.sizes();
    let other_width = call.step.lengths(allowed_width(random), blocks)[at];
    let other_blocks = call.step.lengths(width, allowed_blocks(random))[at];
    let other = random.below(20001);
    let length = random.pick(&[right.saturating_sub(1), right + 1, 0, other_width, other_blocks, other]);
    call.ranges[at].resize(length, 0x5a);
}
