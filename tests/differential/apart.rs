//! Two batches whose numbers differ in the upper half alone, on the same secrets: the library must write other choices, tables and
//! corrections for each.

use crate::call::{Call, Step};
use crate::compare::Comparison;
use crate::draw;
use crate::library::Record;
use crate::random::Random;
use crate::twin::batch::READY;
use crate::twin::setup::{NODE, WIDTHS};

/// The steps that make streams.
const STARTS: [Step; 2] = [Step::ReceiverStart, Step::SenderCorrect];

pub fn play(comparison: &mut Comparison) -> Option<()> {
    let (step, width) = (comparison.random.pick(&STARTS), draw::allowed_width(&mut comparison.random));
    let calls = drawn(&mut comparison.random, step, width);
    comparison.call_apart(calls)
}

/// A pair of each step at every width, so that no run is without one.
pub fn sweep(comparison: &mut Comparison) -> Option<()> {
    for width in WIDTHS {
        for step in STARTS {
            let calls = drawn(&mut comparison.random, step, width);
            comparison.call_apart(calls)?;
        }
    }
    Some(())
}

/// Two calls that are done, alike but for the number.
fn drawn(random: &mut Random, step: Step, width: u32) -> [Call; 2] {
    let (batches, blocks) = (draw::batches_apart(random), draw::allowed_blocks(random));
    let record = Record {
        width,
        blocks: draw::blocks(random),
        last: random.number() % batches[0].min(batches[1]),
        stage: READY,
    };
    let lengths = step.lengths(width, blocks).into_iter();
    let ranges: Vec<Vec<u8>> = lengths.map(|length| nodes(random, length)).collect();
    batches.map(|batch| Call {
        step,
        record,
        width,
        batch,
        blocks,
        key: 0,
        ranges: ranges.clone(),
    })
}

/// Bytes drawn node by node: roots that were all the same would have a correction of zeros in every batch.
fn nodes(random: &mut Random, length: usize) -> Vec<u8> {
    let mut out: Vec<u8> = (0..length).step_by(NODE).flat_map(|_| random.bytes(NODE)).collect();
    out.truncate(length);
    out
}
