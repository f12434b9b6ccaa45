//! Single calls: on any record, numbers and ranges, with most lengths as these ask.

use crate::call::{Call, Step, STEPS};
use crate::compare::Comparison;
use crate::draw;
use crate::library::Record;
use crate::random::Random;
use crate::twin::{batch, gf64, sizes};

pub fn play(comparison: &mut Comparison) -> Option<()> {
    let random = &mut comparison.random;
    let step = random.pick(&STEPS);
    let record = draw::record(random, step);
    let mut call = drawn(random, step, record);
    if step == Step::SenderVerify && random.one_in(2) {
        fit(&mut call);
        if random.one_in(2) {
            let read = random.below(step.read().len());
            random.flip(&mut call.ranges[read]);
        }
    }
    if random.one_in(4) {
        draw::wrong_length(random, &mut call);
        while random.one_in(2) {
            draw::wrong_length(random, &mut call);
        }
    }
    comparison.call(call).map(|_| ())
}

/// A verify that is accepted, and then with a bit of each fold of its message altered in turn, so that no column goes without.
pub fn sweep(comparison: &mut Comparison) -> Option<()> {
    let random = &mut comparison.random;
    let record = Record {
        width: draw::allowed_width(random),
        last: draw::batch_above(random, 0),
        blocks: draw::allowed_blocks(random),
        stage: batch::OPEN,
    };
    let mut call = drawn(random, Step::SenderVerify, record);
    call.key = draw::usable_key(random);
    fit(&mut call);
    comparison.call(call.clone())?;
    for fold in 0..1 + sizes::columns(record.width as usize) {
        let mut altered = call.clone();
        comparison.random.flip(&mut altered.ranges[2][8 * fold..8 * fold + 8]);
        comparison.call(altered)?;
    }
    Some(())
}

/// Any numbers, and ranges of the lengths that these and the record ask for.
fn drawn(random: &mut Random, step: Step, record: Record) -> Call {
    let near = random.one_in(3);
    let batch = if near {
        draw::batch_near(random, record.last)
    } else {
        draw::batch_above(random, record.last)
    };
    let (width, blocks, key) = (draw::width(random), draw::blocks(random), draw::key(random));
    let mut call = Call {
        step,
        record,
        width,
        batch,
        blocks,
        key,
        ranges: vec![],
    };
    let (width, blocks) = call.sizes();
    call.ranges = step.lengths(width, blocks).into_iter().map(|length| random.bytes(length)).collect();
    call
}

/// Makes the message of a verify one that is accepted: on any table and delta, whatever its choice fold.
fn fit(call: &mut Call) {
    if let [table, delta, message, _] = call.ranges.as_mut_slice() {
        let folds = batch::accepted_folds(call.record.width as usize, call.key, table, delta, gf64::words(message)[0]);
        message.truncate(8);
        message.extend(folds.into_iter().flat_map(u64::to_le_bytes));
    }
}
