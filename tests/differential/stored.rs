//! Holds the twin to published vectors, and to the cases that reference/write.py stored (its setup_cases and session_cases, and those of
//! reference/filecases.py: cases and host_writes).

use crate::call::{Call, Outcome, BATCH};
use crate::library::Record;
use crate::pair::{side_of, Pair, RECEIVER, SENDER};
use crate::random::Random;
use crate::twin::batch::open_session;
use crate::twin::setup::{receiver_setup, receiver_setup_lengths, sender_pads, sender_setup, sender_setup_lengths, DONE, WIDTHS};
use crate::twin::{chacha20, file, gf64, sha256, sizes};

fn hex(bytes: &[u8]) -> String {
    bytes.iter().map(|x| format!("{x:02x}")).collect()
}

pub fn published() {
    // RFC 8439, 2.3.2
    let block = chacha20::block(&std::array::from_fn(|i| i as u8), 1, &[0, 0, 0, 9, 0, 0, 0, 0x4a, 0, 0, 0, 0]);
    let expected = "10f1e7e4d13b5915500fdd1fa32071c4c7d1f4c733c068030422aa9ac3d46c4e\
                    d2826446079faa0914c2d705d98b02a2b5129cd1de164eb9cbd083e8a2503c4e";
    assert_eq!(hex(&block), expected);
    // FIPS 180-4's example
    assert_eq!(
        hex(&sha256::digest(b"abc")),
        "ba7816bf8f01cfea414140de5dae2223b00361a396177a9cb410ff61f20015ad"
    );
    // Paper 01's M3, M4 and M7
    assert_eq!(gf64::fold(2, &[1, 5]), 7);
    assert_eq!(gf64::fold(2, &[1 << 63, 0]), 0x1b);
    assert_eq!(gf64::fold(1 << 63, &[1 << 63, 0]), 0xc00000000000005a);
}

struct Stored {
    data: Vec<u8>,
    at: usize,
}

impl Stored {
    fn new(path: &str) -> Stored {
        Stored {
            data: std::fs::read(path).unwrap_or_else(|error| panic!("{path}: {error}")),
            at: 0,
        }
    }

    fn bytes(&mut self, length: usize) -> Vec<u8> {
        self.at += length;
        self.data[self.at - length..self.at].to_vec()
    }

    fn number(&mut self) -> u32 {
        u32::from_le_bytes(self.bytes(4).try_into().unwrap())
    }

    fn long(&mut self) -> u64 {
        u64::from_le_bytes(self.bytes(8).try_into().unwrap())
    }

    fn record(&mut self) -> Record {
        Record {
            width: self.number(),
            last: self.long(),
            blocks: self.number(),
            stage: self.number(),
        }
    }

    fn ended(&self) -> bool {
        self.at == self.data.len()
    }

    fn end(&self) {
        assert_eq!(self.at, self.data.len(), "the stored cases are longer than those read");
    }
}

pub fn setups() {
    let mut file = Stored::new("tests/host/setup.bin");
    for width in WIDTHS {
        let k = width as usize;
        let [roots, pads, message] = receiver_setup_lengths(k).map(|n| file.bytes(n));
        assert!(
            receiver_setup(width, [&roots, &pads, &vec![0; message.len()]]) == (DONE, vec![message.clone()]),
            "receiver's setup, width {width}"
        );
        let lengths = [sizes::delta_length(k), sizes::sender_base_pads_length(k), sizes::siblings_length(k)];
        let [delta, mine, siblings] = lengths.map(|n| file.bytes(n));
        let before = vec![0; siblings.len()];
        assert!(sender_pads(k, &delta, &pads) == mine, "sender's pads, width {width}");
        assert!(
            sender_setup(width, [&delta, &mine, &message, &before]) == (DONE, vec![siblings]),
            "sender's setup, width {width}"
        );
        let [delta, mine, message, siblings] = sender_setup_lengths(k).map(|n| file.bytes(n));
        assert!(
            sender_setup(width, [&delta, &mine, &message, &before]) == (DONE, vec![siblings]),
            "any setup, width {width}"
        );
    }
    file.end();
}

pub fn sessions() {
    for width in WIDTHS {
        session(width, Stored::new(&format!("tests/host/session{width}.bin")));
    }
}

/// Four batches; then one on records that are opened anew, each of whose last two steps is first called with two keys that aren't usable.
fn session(width: u32, mut file: Stored) {
    let new = open_session(Record::default(), width).1;
    let mut pair = Pair::new(width, [new; 2]);
    let k = width as usize;
    let lengths = [sizes::roots_length(k), sizes::siblings_length(k), sizes::delta_length(k)];
    let [roots, siblings, delta] = lengths.map(|n| file.bytes(n));
    pair.sides[RECEIVER].held.insert("roots", roots);
    pair.sides[SENDER].held.extend([("siblings", siblings), ("delta", delta)]);
    for batch in 0..5 {
        (pair.batch, pair.key, pair.blocks) = (file.long(), file.long(), file.number());
        if batch == 4 {
            pair.sides.iter_mut().for_each(|side| side.record = new);
        }
        for (at, step) in BATCH.into_iter().enumerate() {
            let mut call = pair.call(&mut Random::new(0), side_of(step), step);
            for _ in 0..if batch == 4 && at >= 2 { 2 } else { 0 } {
                call.key = file.long();
                let outcome = answered(&mut file, &call);
                assert!(outcome.ranges == call.ranges, "{}: ranges", call.told());
                call.record = outcome.record;
            }
            call.key = pair.key;
            let outcome = answered(&mut file, &call);
            let mut expected = call.ranges.clone();
            expected[step.read().len()..]
                .iter_mut()
                .for_each(|range| *range = file.bytes(range.len()));
            assert!(outcome.ranges == expected, "{}: ranges", call.told());
            pair.keep(side_of(step), &call, &outcome);
        }
    }
    file.end();
}

/// What the twin says of a call, of which the stored file has the answer and the record.
fn answered(file: &mut Stored, call: &Call) -> Outcome {
    let outcome = call.twin();
    assert!(outcome.answer == file.number(), "{}: answer", call.told());
    assert!(outcome.record == file.record(), "{}: record", call.told());
    outcome
}

/// Calls of the writer: the values, the lengths of the bodies and of the range for the file, the bodies, the answer, and where it is done
/// the file.
pub fn writes() {
    let mut stored = Stored::new("tests/host/writes.bin");
    while !stored.ended() {
        let (width, blocks, batch) = (stored.number(), stored.number(), stored.long());
        let lengths: [usize; 5] = std::array::from_fn(|_| stored.number() as usize);
        let bodies: [Vec<u8>; 4] = std::array::from_fn(|i| stored.bytes(lengths[i]));
        let before = vec![0; lengths[4]];
        let [setup, correction, key, check] = &bodies;
        let (answer, after) = file::write_batch(width, blocks, batch, [setup, correction, key, check, &before]);
        assert!(answer == stored.number(), "write that ends at {}: answer {answer}", stored.at);
        assert!(
            after.iter().all(|file| *file == stored.bytes(file.len())),
            "write that ends at {}",
            stored.at
        );
    }
}

/// What a record of the program files asks for.
const READ: u8 = 1;
const WRITE: u8 = 2;
const AGAIN: u8 = 3;

/// The files that the program files reads and writes, and what it must print of each.
pub fn files() {
    let mut records = Stored::new("crates/files/stdin");
    let printed = Stored::new("crates/files/stdout").data;
    let mut lines = std::str::from_utf8(&printed).unwrap().lines();
    let mut derived = Derived::new(0);
    while !records.ended() {
        let (kind, length) = (records.bytes(1)[0], records.number() as usize);
        let end = records.at + length;
        let line = match kind {
            READ => told(&laid(&mut records, end, &mut derived)),
            WRITE => written(&mut records, &mut derived),
            AGAIN => written_again(&mut records, end, &mut derived),
            _ => panic!("a record of another kind"),
        };
        assert!(
            records.at == end && lines.next() == Some(&line),
            "record of kind {kind} that ends at {end}"
        );
    }
    assert!(lines.next().is_none(), "a line too many");
}

/// What a record's ranges hold where it doesn't say so, as much as the program derives: a file that is read, or the bodies of one that is
/// to be written; and the range for that file.
struct Derived {
    seed: u32,
    ranges: [Vec<u8>; 2],
}

impl Derived {
    fn new(seed: u32) -> Derived {
        let block = |number, j| sha256::digest(&[seed, number, j].map(u32::to_le_bytes).concat());
        Derived {
            seed,
            ranges: [0, 1].map(|number| (0..1921).flat_map(|j| block(number, j)).collect()),
        }
    }

    /// Many records in turn have the same seed.
    fn of(&mut self, seed: u32) -> &[Vec<u8>; 2] {
        if self.seed != seed {
            *self = Derived::new(seed);
        }
        &self.ranges
    }
}

/// A file that is read, of a record that ends there: its length and seed, and the parts that are sent.
fn laid(records: &mut Stored, end: usize, derived: &mut Derived) -> Vec<u8> {
    let (length, seed) = (records.number() as usize, records.number());
    let mut file = derived.of(seed)[0][..length].to_vec();
    while records.at < end {
        let (at, count) = (records.number() as usize, records.number() as usize);
        file[at..at + count].copy_from_slice(&records.bytes(count));
    }
    file
}

/// Values, the lengths of the bodies and of the range for the file, and a seed: the line that writing it gives.
fn written(records: &mut Stored, derived: &mut Derived) -> String {
    let (width, blocks, batch) = (records.number(), records.number(), records.long());
    let lengths: [usize; 5] = std::array::from_fn(|_| records.number() as usize);
    let [under, before] = derived.of(records.number());
    let mut at = 0;
    let bodies = [0, 1, 2, 3].map(|i| {
        at += lengths[i];
        &under[at - lengths[i]..at]
    });
    told_written(width, blocks, batch, bodies, &before[..lengths[4]])
}

/// The length of the range for the file, and then a file that is read: the line that writing what is found gives.
fn written_again(records: &mut Stored, end: usize, derived: &mut Derived) -> String {
    let length = records.number() as usize;
    let data = laid(records, end, derived);
    let found = file::read(&data);
    let [setup, _, correction, key, check] = found.bodies(&data);
    let before = &derived.ranges[1][..length];
    told_written(found.width, found.blocks, found.batch, [setup, correction, key, check], before)
}

/// The answer, and the digest of the range for the file, which was this before.
fn told_written(width: u32, blocks: u32, batch: u64, bodies: [&[u8]; 4], before: &[u8]) -> String {
    let [setup, correction, key, check] = bodies;
    let (answer, after) = file::write_batch(width, blocks, batch, [setup, correction, key, check, before]);
    let digest = sha256::digest(after.first().map_or(before, Vec::as_slice));
    hex(&[&[answer as u8][..], &digest].concat())
}

/// The line that a file gives: what reading finds, and of each kind from 0 to 6 the body that lies between its place and the next.
fn told(data: &[u8]) -> String {
    let (found, mut line) = (file::read(data), vec![]);
    line.push(found.answer as u8);
    line.extend(found.bytes());
    let [setup, head, correction, key, check] = found.bodies(data);
    for body in [&[], setup, head, correction, key, check, &[]] {
        line.extend(&sha256::digest(body)[..8]);
        line.extend((body.len() as u64).to_le_bytes());
    }
    hex(&line)
}
