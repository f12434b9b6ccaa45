//! Makes each call on the library and on the twin, compares all that they leave, and counts.

use crate::call::{Call, Outcome, Step, STEPS};
use crate::files;
use crate::library::{self, File, Lent, Record};
use crate::plant::{Fault, Plant};
use crate::random::Random;
use crate::twin::batch::{CHECK, WEAK_KEY};
use crate::twin::file;
use crate::twin::setup::DONE;
use std::ops::Range;

/// A byte that differs, or that was altered on purpose. Bytes are numbered from the part's first: below 0 is the guard before it.
#[derive(PartialEq)]
pub struct Place {
    pub call: usize,
    pub part: &'static str,
    pub byte: isize,
}

pub struct Comparison {
    /// Of this the calls are drawn, and nothing else, so that they depend on the seed alone.
    pub random: Random,
    seed: u64,
    /// No step is called once so many calls have been made.
    limit: usize,
    made: usize,
    plant: Option<Plant>,
    differences: Vec<Place>,
    /// Of each step, then of the writes of files, and then of the reads, the answers.
    counts: [[usize; ANSWERS]; FILES + 1],
    /// Damaged batches, accepted and refused.
    damaged: [usize; 2],
    /// Pairs of batches whose numbers differ in the upper half alone.
    apart: usize,
    /// Files that were taken, and then written again: with a short head, and with a long one.
    again: [usize; 2],
}

/// The most differences that are printed.
const PRINTED: usize = 10;

/// How many answers there are.
const ANSWERS: usize = 10;

/// Where the reads of files are counted.
const FILES: usize = STEPS.len() + 1;

/// All that a call is lent or gives, with guards: the answer, the record and the ranges.
fn parts(number: usize, answer: u32, record: Record, ranges: &[Vec<u8>]) -> Vec<Lent> {
    let mut out = vec![Lent::new(&answer.to_ne_bytes(), 0), Lent::new(&record.bytes(), 0)];
    out.extend(ranges.iter().enumerate().map(|(i, range)| Lent::new(range, (number + 5 * i) % 16)));
    out
}

pub fn library_leaves(number: usize, call: &Call) -> Vec<Lent> {
    let mut out = parts(number, 0, call.record, &call.ranges);
    let (head, ranges) = out.split_at_mut(2);
    head[0] = Lent::new(&library::made(call, &mut head[1], ranges).to_ne_bytes(), 0);
    out
}

fn names(call: &Call) -> Vec<&'static str> {
    [&["answer", "record"][..], call.step.read(), call.step.written()].concat()
}

/// The parts that a call wrote, of those: the ranges that the step writes where it is done, the answer where there are none.
fn written(call: &Call, done: bool) -> Range<usize> {
    let (first, count) = (2 + call.step.read().len(), call.step.written().len());
    if done && count > 0 {
        first..first + count
    } else {
        0..1
    }
}

impl Comparison {
    /// At least so many calls must follow: one of them gets the planted difference, if there is to be one.
    pub fn new(seed: u64, least: usize, plant: Option<Fault>) -> Comparison {
        Comparison {
            random: Random::new(seed),
            seed,
            limit: 0,
            made: 0,
            plant: plant.map(|fault| Plant::new(fault, seed, least)),
            differences: vec![],
            counts: [[0; ANSWERS]; FILES + 1],
            damaged: [0; 2],
            apart: 0,
            again: [0; 2],
        }
    }

    /// So many calls of steps may now be made.
    pub fn allow(&mut self, calls: usize) {
        self.limit = self.made + calls;
    }

    /// What the twin says, or nothing if all calls have been made.
    pub fn call(&mut self, call: Call) -> Option<Outcome> {
        self.call_left(&call).map(|(outcome, _)| outcome)
    }

    /// Two calls of one step, on two batches: no range may be written alike. Nothing if all calls have been made.
    pub fn call_apart(&mut self, calls: [Call; 2]) -> Option<()> {
        let (_, first) = self.call_left(&calls[0])?;
        let (_, second) = self.call_left(&calls[1])?;
        for at in written(&calls[1], true) {
            let (part, other) = (names(&calls[1])[at], first[at].content() != second[at].content());
            let how = format!("{part}: the library wrote the same for batch {}", calls[0].batch);
            self.expect(other, part, &|| calls[1].told(), &how);
        }
        self.apart += 1;
        Some(())
    }

    /// What the twin says, and what the library left; nothing if all calls have been made.
    fn call_left(&mut self, call: &Call) -> Option<(Outcome, Vec<Lent>)> {
        (self.made < self.limit).then(|| self.compared(call))
    }

    /// What the twin says, and what the library left, without what was planted there.
    fn compared(&mut self, call: &Call) -> (Outcome, Vec<Lent>) {
        let outcome = call.twin();
        let expected = parts(self.made, outcome.answer, outcome.record, &outcome.ranges);
        let left = library_leaves(self.made, call);
        let mut shown = left.clone();
        if let Some(plant) = self.plant.as_mut().filter(|_| outcome.answer == WEAK_KEY) {
            plant.key(self.made, call, &mut shown);
        }
        let written = written(call, outcome.answer == DONE);
        self.compare(&names(call), &mut shown, &expected, written, &|| call.told());
        self.counts[call.step as usize][outcome.answer as usize] += 1;
        (outcome, left)
    }

    /// Writes a file, on the library and on the twin: what the library wrote, if it was done.
    pub fn write(&mut self, call: &Call) -> Option<Vec<u8>> {
        let (_, left) = self.compared(call);
        let done = left[0].content() == DONE.to_ne_bytes();
        done.then(|| left[left.len() - 1].content().to_vec())
    }

    /// Reads a file, on the library and on the twin: what the library found.
    pub fn read(&mut self, file: &[u8]) -> File {
        let (found, mut lent) = (file::read(file), Lent::new(file, self.made % 16));
        let expected = vec![
            Lent::new(&found.answer.to_ne_bytes(), 0),
            Lent::new(&found.bytes(), 0),
            lent.clone(),
        ];
        let given = library::read(&mut lent);
        let mut shown = given;
        if let Some(plant) = self.plant.as_mut().filter(|_| found.answer == WEAK_KEY) {
            plant.key_in_file(self.made, file, &mut shown);
        }
        let mut left = [Lent::new(&shown.answer.to_ne_bytes(), 0), Lent::new(&shown.bytes(), 0), lent];
        let told = || format!("file_read: {} bytes, contents {:02x?}", file.len(), &file[..file.len().min(64)]);
        self.compare(&["answer", "found", "file"], &mut left, &expected, 0..2, &told);
        self.counts[FILES][found.answer as usize] += 1;
        given
    }

    /// This must hold of what the library left in the last call, whatever the twin says.
    pub fn expect(&mut self, right: bool, part: &'static str, told: &dyn Fn() -> String, how: &str) {
        let (call, byte) = (self.made - 1, 0);
        if !right {
            self.differ(Place { call, part, byte }, told, how);
        }
    }

    /// Compares what a call left part by part, after a bit was planted in one of those written, if it is this call's turn.
    fn compare(&mut self, names: &[&'static str], left: &mut [Lent], expected: &[Lent], written: Range<usize>, told: &dyn Fn() -> String) {
        if let Some(plant) = &mut self.plant {
            plant.bit(self.made, names, written, left);
        }
        for ((name, mine), theirs) in names.iter().zip(left).zip(expected) {
            self.compare_part(name, mine, theirs, told);
        }
        self.made += 1;
    }

    fn compare_part(&mut self, part: &'static str, library: &Lent, twin: &Lent, told: &dyn Fn() -> String) {
        assert_eq!(library.all.len(), twin.all.len());
        let at = match library.all.iter().zip(&twin.all).position(|(x, y)| x != y) {
            Some(at) => at,
            None => return,
        };
        let (call, byte) = (self.made, at as isize - library.before as isize);
        let how = format!(
            "{part} of {} bytes, byte {byte}: library {:02x}, twin {:02x}",
            library.length, library.all[at], twin.all[at]
        );
        self.differ(Place { call, part, byte }, told, &how);
    }

    /// Counts a difference, and prints it if it is one of the first.
    fn differ(&mut self, place: Place, told: &dyn Fn() -> String, how: &str) {
        if self.differences.len() < PRINTED {
            println!("difference: seed {}, call {}, {}", self.seed, place.call, told());
            println!("  {how}");
        }
        self.differences.push(place);
    }

    /// Counts the verify of a damaged batch.
    pub fn verified_damaged(&mut self, answer: u32) {
        match answer {
            DONE => self.damaged[0] += 1,
            CHECK => self.damaged[1] += 1,
            _ => (),
        }
    }

    /// Counts a file that was taken and written again.
    pub fn written_again(&mut self, long: bool) {
        self.again[usize::from(long)] += 1;
    }

    /// Prints the counts and what is wrong; the exit status.
    pub fn status(&self) -> i32 {
        let numbers: [usize; ANSWERS] = std::array::from_fn(|answer| answer);
        println!("{:16}{}", "answer", numbers.map(|answer| format!("{answer:7}")).concat());
        for (name, _, counts) in self.functions() {
            println!("{name:16}{}", counts.map(|count| format!("{count:7}")).concat());
        }
        let [accepted, refused] = self.damaged;
        println!("damaged batches: {accepted} accepted, {refused} refused");
        let [short, long] = self.again;
        println!("files written again: {short} with a short head, {long} with a long one");
        let missing = self.missing();
        missing.iter().for_each(|what| println!("never: {what}"));
        println!(
            "differential: {} calls, {} pairs of batches apart in the upper half, seed {}, {} differences",
            self.made,
            self.apart,
            self.seed,
            self.differences.len()
        );
        match &self.plant {
            None => i32::from(!self.differences.is_empty() || !missing.is_empty()),
            Some(plant) => 2 - i32::from(plant.seen(&self.differences)),
        }
    }

    /// Each function's name, the answers that it can give, and how often each was given.
    fn functions(&self) -> Vec<(&'static str, &'static [u32], [usize; ANSWERS])> {
        let calls = STEPS.into_iter().chain([Step::FileWrite]).map(|step| (step.name(), step.answers()));
        let all = calls.chain([("file_read", &files::ANSWERS[..])]);
        all.zip(self.counts)
            .map(|((name, answers), counts)| (name, answers, counts))
            .collect()
    }

    /// What should have occurred and didn't: an answer, a verdict on a damaged batch, a file written again, or a pair of batches.
    fn missing(&self) -> Vec<String> {
        let mut out = vec![];
        for (name, answers, counts) in self.functions() {
            let never = answers.iter().filter(|answer| counts[**answer as usize] == 0);
            out.extend(never.map(|answer| format!("{name} answered {answer}")));
        }
        let never = ["accepted", "refused"].iter().zip(self.damaged).filter(|(_, count)| *count == 0);
        out.extend(never.map(|(verdict, _)| format!("a damaged batch was {verdict}")));
        let never = ["short", "long"].iter().zip(self.again).filter(|(_, count)| *count == 0);
        out.extend(never.map(|(head, _)| format!("a file with a {head} head was written again")));
        if self.apart == 0 {
            out.push("a pair of batches apart in the upper half".to_string());
        }
        out
    }
}
