//! A call of one of the seven steps, or of the writer of files, and what the twin says of it.

use crate::library::Record;
use crate::twin::{batch, file, setup, sizes};
use Step::*;

#[derive(Clone, Copy, PartialEq)]
pub enum Step {
    ReceiverSetup,
    SenderSetup,
    Open,
    ReceiverStart,
    SenderCorrect,
    ReceiverAnswer,
    SenderVerify,
    /// No step, but it is lent numbers and ranges as they are.
    FileWrite,
}

/// The steps, without the writer.
pub const STEPS: [Step; 7] = [
    ReceiverSetup,
    SenderSetup,
    Open,
    ReceiverStart,
    SenderCorrect,
    ReceiverAnswer,
    SenderVerify,
];

/// The steps of a batch, as they follow one another.
pub const BATCH: [Step; 4] = [ReceiverStart, SenderCorrect, ReceiverAnswer, SenderVerify];

impl Step {
    pub fn name(self) -> &'static str {
        [
            "receiver_setup",
            "sender_setup",
            "open",
            "receiver_start",
            "sender_correct",
            "receiver_answer",
            "sender_verify",
            "file_write",
        ][self as usize]
    }

    /// The ranges that the step reads, in the order of its parameters.
    pub fn read(self) -> &'static [&'static str] {
        match self {
            ReceiverSetup => &["roots", "base_pads"],
            SenderSetup => &["delta", "base_pads", "message"],
            Open => &[],
            ReceiverStart => &["roots"],
            SenderCorrect => &["siblings", "delta", "correction"],
            ReceiverAnswer => &["choices", "table"],
            SenderVerify => &["table", "delta", "message"],
            FileWrite => &["setup", "correction", "key", "check"],
        }
    }

    /// Those that it writes, which follow them.
    pub fn written(self) -> &'static [&'static str] {
        match self {
            ReceiverSetup => &["message"],
            SenderSetup => &["siblings"],
            Open => &[],
            ReceiverStart => &["choices", "table", "correction"],
            SenderCorrect => &["table"],
            ReceiverAnswer => &["message", "pads"],
            SenderVerify => &["pads"],
            FileWrite => &["file"],
        }
    }

    /// The answers that the step can give: include/softspoken.h.
    pub fn answers(self) -> &'static [u32] {
        match self {
            ReceiverSetup | SenderSetup => &[0, 1, 5],
            Open => &[0, 1],
            ReceiverStart | SenderCorrect => &[0, 1, 2, 3, 4, 5],
            ReceiverAnswer => &[0, 1, 2, 3, 4, 5, 9],
            SenderVerify => &[0, 1, 2, 3, 4, 5, 6, 9],
            FileWrite => &[0, 1, 3, 4, 5, 8, 9],
        }
    }

    /// The lengths of all its ranges. Numbers that no step allows are brought near those allowed, so that any may be given.
    pub fn lengths(self, width: u32, blocks: u32) -> Vec<usize> {
        let (width, blocks) = (width.max(1) as usize, blocks.min(17) as usize);
        let width = width.min(sizes::columns(width)); // so that there is a tree
        match self {
            ReceiverSetup => setup::receiver_setup_lengths(width).to_vec(),
            SenderSetup => setup::sender_setup_lengths(width).to_vec(),
            Open => vec![],
            ReceiverStart => batch::start_lengths(width, blocks).to_vec(),
            SenderCorrect => batch::correct_lengths(width, blocks).to_vec(),
            ReceiverAnswer => batch::answer_lengths(width, blocks).to_vec(),
            SenderVerify => batch::verify_lengths(width, blocks).to_vec(),
            FileWrite => file::write_lengths(width, blocks).to_vec(),
        }
    }
}

/// Numbers that the step doesn't take, and the record where it takes none, are there all the same.
#[derive(Clone, PartialEq)]
pub struct Call {
    pub step: Step,
    pub record: Record,
    pub width: u32,
    pub batch: u64,
    pub blocks: u32,
    pub key: u64,
    pub ranges: Vec<Vec<u8>>,
}

/// What a call leaves.
pub struct Outcome {
    pub answer: u32,
    pub record: Record,
    pub ranges: Vec<Vec<u8>>,
}

impl Call {
    /// The width and the blocks that the lengths of its ranges go by.
    pub fn sizes(&self) -> (u32, u32) {
        let width = if matches!(self.step, ReceiverSetup | SenderSetup | FileWrite) {
            self.width
        } else {
            self.record.width
        };
        let blocks = if matches!(self.step, ReceiverAnswer | SenderVerify) {
            self.record.blocks
        } else {
            self.blocks
        };
        (width, blocks)
    }

    /// The same call with key 2, if it has key 1.
    pub fn two_for_one(&self) -> Option<Call> {
        let mut other = self.clone();
        match self.step {
            ReceiverAnswer | SenderVerify if self.key == 1 => other.key = 2,
            FileWrite if self.ranges[2] == 1u64.to_le_bytes() => other.ranges[2] = 2u64.to_le_bytes().to_vec(),
            _ => return None,
        }
        Some(other)
    }

    fn lent<const N: usize>(&self) -> [&[u8]; N] {
        std::array::from_fn(|i| self.ranges[i].as_slice())
    }

    pub fn twin(&self) -> Outcome {
        let with_record = |(answer, written)| (answer, self.record, written);
        let (answer, record, written) = match self.step {
            ReceiverSetup => with_record(setup::receiver_setup(self.width, self.lent())),
            SenderSetup => with_record(setup::sender_setup(self.width, self.lent())),
            Open => batch::open_session(self.record, self.width),
            ReceiverStart => batch::receiver_start(self.record, self.batch, self.blocks, self.lent()),
            SenderCorrect => batch::sender_correct(self.record, self.batch, self.blocks, self.lent()),
            ReceiverAnswer => batch::receiver_answer(self.record, self.key, self.lent()),
            SenderVerify => batch::sender_verify(self.record, self.key, self.lent()),
            FileWrite => with_record(file::write_batch(self.width, self.blocks, self.batch, self.lent())),
        };
        let mut ranges = self.ranges.clone();
        ranges.splice(ranges.len() - written.len().., written);
        Outcome { answer, record, ranges }
    }

    /// The numbers and lengths, for a report.
    pub fn told(&self) -> String {
        let Record {
            width,
            blocks,
            last,
            stage,
        } = self.record;
        let lengths: Vec<usize> = self.ranges.iter().map(Vec::len).collect();
        format!(
            "{}: record {width} {blocks} {last} {stage}, width {}, batch {}, blocks {}, key {:016x}, lengths {lengths:?}",
            self.step.name(),
            self.width,
            self.batch,
            self.blocks,
            self.key
        )
    }
}
