//! The two sides of a session and what each of them holds.

use crate::call::{Call, Outcome, Step};
use crate::library::Record;
use crate::random::Random;
use crate::twin::setup::DONE;
use std::collections::BTreeMap;

pub const RECEIVER: usize = 0;
pub const SENDER: usize = 1;

/// A record, and by their names the ranges that the side has or was sent.
pub struct Side {
    pub record: Record,
    pub held: BTreeMap<&'static str, Vec<u8>>,
}

pub struct Pair {
    pub width: u32,
    /// Of the batch that the receiver started last, or that comes next.
    pub batch: u64,
    pub blocks: u32,
    pub key: u64,
    pub sides: [Side; 2],
}

impl Pair {
    pub fn new(width: u32, records: [Record; 2]) -> Pair {
        Pair {
            width,
            batch: 0,
            blocks: 0,
            key: 0,
            sides: records.map(|record| Side {
                record,
                held: BTreeMap::new(),
            }),
        }
    }

    /// The call that a side makes next if it takes this step: on what it holds, and on any bytes where it holds nothing yet.
    pub fn call(&self, random: &mut Random, side: usize, step: Step) -> Call {
        let Side { record, held } = &self.sides[side];
        let read = step.read().iter().map(|name| held.get(name));
        let ranges = read
            .chain(step.written().iter().map(|_| None))
            .zip(step.lengths(self.width, self.blocks));
        let ranges = ranges
            .map(|(range, length)| range.cloned().unwrap_or_else(|| random.bytes(length)))
            .collect();
        Call {
            step,
            record: *record,
            width: self.width,
            batch: self.batch,
            blocks: self.blocks,
            key: self.key,
            ranges,
        }
    }

    /// The side keeps what the call left, and what the receiver writes for the sender is handed over.
    pub fn keep(&mut self, side: usize, call: &Call, outcome: &Outcome) {
        self.sides[side].record = outcome.record;
        if outcome.answer != DONE {
            return;
        }
        for (name, range) in call.step.written().iter().zip(&outcome.ranges[call.step.read().len()..]) {
            self.sides[side].held.insert(name, range.clone());
            if side == RECEIVER && ["message", "correction"].contains(name) {
                self.sides[SENDER].held.insert(name, range.clone());
            }
        }
        if call.step == Step::ReceiverStart {
            (self.batch, self.blocks) = (call.batch, call.blocks);
        }
    }
}

/// The side that takes a step, but for the open and the writer, which both take.
pub fn side_of(step: Step) -> usize {
    match step {
        Step::ReceiverSetup | Step::ReceiverStart | Step::ReceiverAnswer | Step::Open | Step::FileWrite => RECEIVER,
        Step::SenderSetup | Step::SenderCorrect | Step::SenderVerify => SENDER,
    }
}
