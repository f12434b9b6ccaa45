//! The library's nine functions, and the ranges that they are lent.
//!
//! Nothing holds these declarations to include/softspoken.h, except that a wrong one would show as a difference.

use crate::call::{Call, Step};
use std::mem::size_of;

#[repr(C)]
#[derive(Clone, Copy, Default, PartialEq)]
pub struct Record {
    pub width: u32,
    pub blocks: u32,
    pub last: u64,
    pub stage: u32,
}

impl Record {
    /// The bytes up to the stage's end. Those that follow it mean nothing.
    const FIELDS: usize = Record::STAGE + 4;

    /// Where the stage begins.
    pub const STAGE: usize = 16;

    /// What stands in each byte after the stage: not 0, so that a step that looks there is seen.
    const AFTER: u8 = 0x5a;

    /// All that the struct has, as it lies in memory.
    pub fn bytes(self) -> Vec<u8> {
        let mut out = [self.width, self.blocks].map(u32::to_ne_bytes).concat();
        out.extend(self.last.to_ne_bytes());
        out.extend(self.stage.to_ne_bytes());
        out.resize(size_of::<Record>(), Record::AFTER);
        out
    }
}

/// What reading a file finds: the answer, the head's values, where the bodies begin, and the file's end.
#[repr(C)]
#[derive(Clone, Copy)]
pub struct File {
    pub answer: u32,
    pub width: u32,
    pub blocks: u32,
    pub batch: u64,
    pub setup: u64,
    pub head: u64,
    pub correction: u64,
    pub key: u64,
    pub check: u64,
    pub end: u64,
}

impl File {
    /// The places of the five bodies, and the end.
    pub fn places(self) -> [u64; 6] {
        [self.setup, self.head, self.correction, self.key, self.check, self.end]
    }

    /// The bodies that lie between the places, which must be those of this file; of other places they are empty.
    pub fn bodies(self, file: &[u8]) -> [&[u8]; 5] {
        let places = self.places().map(|place| place as usize);
        std::array::from_fn(|i| file.get(places[i]..places[i + 1]).unwrap_or(&[]))
    }

    /// All but the answer, without what the struct has between its fields.
    pub fn bytes(self) -> Vec<u8> {
        let head = [self.width, self.blocks].map(u32::to_le_bytes).concat();
        let rest = [&[self.batch][..], &self.places()].concat();
        head.into_iter().chain(rest.into_iter().flat_map(u64::to_le_bytes)).collect()
    }
}

#[rustfmt::skip]
extern "C" {
    fn softspoken_receiver_setup(width: u32, roots: *const u8, roots_len: usize, base_pads: *const u8, base_pads_len: usize,
        message: *mut u8, message_len: usize) -> u32;
    fn softspoken_sender_setup(width: u32, delta: *const u8, delta_len: usize, base_pads: *const u8, base_pads_len: usize,
        message: *const u8, message_len: usize, siblings: *mut u8, siblings_len: usize) -> u32;
    fn softspoken_open(record: *mut Record, width: u32) -> u32;
    fn softspoken_receiver_start(record: *mut Record, roots: *const u8, roots_len: usize, batch: u64, blocks: u32,
        choices: *mut u8, choices_len: usize, table: *mut u8, table_len: usize, correction: *mut u8, correction_len: usize) -> u32;
    fn softspoken_sender_correct(record: *mut Record, siblings: *const u8, siblings_len: usize, delta: *const u8, delta_len: usize,
        batch: u64, blocks: u32, correction: *const u8, correction_len: usize, table: *mut u8, table_len: usize) -> u32;
    fn softspoken_receiver_answer(record: *mut Record, key: u64, choices: *const u8, choices_len: usize,
        table: *const u8, table_len: usize, message: *mut u8, message_len: usize, pads: *mut u8, pads_len: usize) -> u32;
    fn softspoken_sender_verify(record: *mut Record, key: u64, table: *const u8, table_len: usize, delta: *const u8, delta_len: usize,
        message: *const u8, message_len: usize, pads: *mut u8, pads_len: usize) -> u32;
    fn softspoken_file_read(file: *const u8, file_len: usize) -> File;
    fn softspoken_file_write(width: u32, blocks: u32, batch: u64, setup: *const u8, setup_len: usize,
        correction: *const u8, correction_len: usize, key: *const u8, key_len: usize, check: *const u8, check_len: usize,
        file: *mut u8, file_len: usize) -> u32;
}

/// Bytes that a call is lent, between guard bytes, in an allocation of their own. So a pointer to them is never dangling, even where
/// their length is 0; two never overlap; and what is written beside them is seen.
#[derive(Clone, PartialEq)]
pub struct Lent {
    pub all: Vec<u8>,
    pub before: usize,
    pub length: usize,
}

impl Lent {
    const GUARD: usize = 64;

    /// The shift, below 16, lets the ranges begin at any alignment.
    pub fn new(content: &[u8], shift: usize) -> Lent {
        let before = Lent::GUARD + shift;
        let mut all: Vec<u8> = (0..before + content.len() + Lent::GUARD).map(|i| 0xc5 ^ i as u8).collect();
        all[before..before + content.len()].copy_from_slice(content);
        Lent {
            all,
            before,
            length: content.len(),
        }
    }

    /// What is between the guards.
    pub fn content(&self) -> &[u8] {
        &self.all[self.before..self.before + self.length]
    }

    /// The pointer is to the range, but is allowed the whole allocation: a write to the guards is then a difference and no worse.
    fn parts(&mut self) -> (*mut u8, usize) {
        (self.all.as_mut_ptr().wrapping_add(self.before), self.length)
    }
}

/// Lends the ranges and a copy of the record, which must be aligned as its longest field is; the answer. What a step leaves after the
/// record's stage, but in the record, isn't kept.
pub fn made(call: &Call, record: &mut Lent, ranges: &mut [Lent]) -> u32 {
    let Call {
        width, batch, blocks, key, ..
    } = *call;
    assert!(record.length == size_of::<Record>() && record.before % 8 == 0);
    let mut words: Vec<u64> = record.all.chunks(8).map(|x| u64::from_ne_bytes(x.try_into().unwrap())).collect();
    let at: *mut Record = words.as_mut_ptr().wrapping_add(record.before / 8).cast();
    let r: Vec<(*mut u8, usize)> = ranges.iter_mut().map(Lent::parts).collect();
    // The pointers are to live allocations, each its own, with as many bytes as the length says; r[i] panics where a range is missing.
    #[rustfmt::skip]
    let answer = unsafe {
        match call.step {
            Step::ReceiverSetup => softspoken_receiver_setup(width, r[0].0, r[0].1, r[1].0, r[1].1, r[2].0, r[2].1),
            Step::SenderSetup => softspoken_sender_setup(width, r[0].0, r[0].1, r[1].0, r[1].1, r[2].0, r[2].1, r[3].0, r[3].1),
            Step::Open => softspoken_open(at, width),
            Step::ReceiverStart => softspoken_receiver_start(at, r[0].0, r[0].1, batch, blocks,
                r[1].0, r[1].1, r[2].0, r[2].1, r[3].0, r[3].1),
            Step::SenderCorrect => softspoken_sender_correct(at, r[0].0, r[0].1, r[1].0, r[1].1, batch, blocks,
                r[2].0, r[2].1, r[3].0, r[3].1),
            Step::ReceiverAnswer => softspoken_receiver_answer(at, key, r[0].0, r[0].1, r[1].0, r[1].1, r[2].0, r[2].1, r[3].0, r[3].1),
            Step::SenderVerify => softspoken_sender_verify(at, key, r[0].0, r[0].1, r[1].0, r[1].1, r[2].0, r[2].1, r[3].0, r[3].1),
            Step::FileWrite => softspoken_file_write(width, blocks, batch, r[0].0, r[0].1, r[1].0, r[1].1, r[2].0, r[2].1,
                r[3].0, r[3].1, r[4].0, r[4].1),
        }
    };
    record.all = words.into_iter().flat_map(u64::to_ne_bytes).collect();
    record.all[record.before..][Record::FIELDS..record.length].fill(Record::AFTER);
    answer
}

/// Lends a file.
pub fn read(file: &mut Lent) -> File {
    let (at, length) = file.parts();
    // The pointer is to a live allocation, with as many bytes as the length says.
    unsafe { softspoken_file_read(at, length) }
}
