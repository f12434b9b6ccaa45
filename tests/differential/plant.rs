//! Differences that are planted: in one call what the library leaves is altered, before it is compared.

use crate::call::{Call, Step};
use crate::compare::{library_leaves, Place};
use crate::library::{self, File, Lent, Record};
use crate::random::Random;
use crate::twin::batch::{CHECK, CLOSED};
use crate::twin::setup::{DONE, LENGTH};
use crate::twin::sizes;
use std::ops::Range;

/// How it is altered: in a call drawn at random, or as a library would leave it that is wrong about a key, in the first call that tells.
#[derive(Clone, Copy, PartialEq)]
pub enum Fault {
    /// One bit of what the call wrote is another.
    Bit,
    /// Key 1 is usable: it does what 2 does, which is done, or fails the check.
    One,
    /// The lengths are looked at before the key.
    Late,
    /// A key that isn't usable closes the record.
    Closed,
}

pub struct Plant {
    fault: Fault,
    random: Random,
    /// The call that gets another bit.
    call: usize,
    place: Option<Place>,
}

impl Fault {
    pub fn named(name: &str) -> Option<Fault> {
        match name {
            "bit" => Some(Fault::Bit),
            "one" => Some(Fault::One),
            "late" => Some(Fault::Late),
            "closed" => Some(Fault::Closed),
            _ => None,
        }
    }
}

impl Plant {
    /// At least so many calls must follow.
    pub fn new(fault: Fault, seed: u64, least: usize) -> Plant {
        let mut random = Random::new(!seed);
        let call = random.below(least.max(1));
        Plant {
            fault,
            random,
            call,
            place: None,
        }
    }

    /// Flips a bit of one of the parts that the call wrote, if it is its turn.
    pub fn bit(&mut self, call: usize, names: &[&'static str], written: Range<usize>, left: &mut [Lent]) {
        if self.fault != Fault::Bit || self.call != call {
            return;
        }
        let part = written.start + self.random.below(written.len());
        let lent = &mut left[part];
        let byte = self.random.below(lent.length);
        lent.all[lent.before + byte] ^= 1 << self.random.below(8);
        self.put(call, names[part], byte);
    }

    /// In what the library left of a call whose key it refused.
    pub fn key(&mut self, number: usize, call: &Call, left: &mut [Lent]) {
        if self.place.is_some() {
            return;
        }
        match self.fault {
            Fault::Bit => (),
            Fault::One => self.two_for_one(number, call, left, &[DONE, CHECK]),
            Fault::Late => self.two_for_one(number, call, left, &[LENGTH]),
            Fault::Closed if call.step == Step::FileWrite => (),
            Fault::Closed => {
                let stage = CLOSED;
                left[1] = Lent::new(&Record { stage, ..call.record }.bytes(), 0);
                self.put(number, "record", Record::STAGE);
            }
        }
    }

    /// What the library leaves with key 2 in the place of 1, where it answers one of these; but what it reads has key 1.
    fn two_for_one(&mut self, number: usize, call: &Call, left: &mut [Lent], answers: &[u32]) {
        if let Some(other) = call.two_for_one().filter(|other| answers.contains(&other.twin().answer)) {
            let (read, parts) = (2..2 + call.step.read().len(), library_leaves(number, &other));
            for (at, part) in parts.into_iter().enumerate().filter(|(at, _)| !read.contains(at)) {
                left[at] = part;
            }
            self.put(number, "answer", 0);
        }
    }

    /// In what the library found in a file whose key it refused.
    pub fn key_in_file(&mut self, number: usize, file: &[u8], found: &mut File) {
        let at = file.len() - sizes::check_message_length(1) - sizes::key_length(1);
        if self.fault == Fault::One && self.place.is_none() && file[at] == 1 {
            let mut other = file.to_vec();
            other[at] = 2;
            *found = library::read(&mut Lent::new(&other, 0));
            self.put(number, "answer", 0);
        }
    }

    /// The first byte that differs.
    fn put(&mut self, call: usize, part: &'static str, byte: usize) {
        let byte = byte as isize;
        println!("planted: call {call}, {part} byte {byte}");
        self.place = Some(Place { call, part, byte });
    }

    /// Whether just what was planted was reported. Where a key is taken, more than one part differs.
    pub fn seen(&self, differences: &[Place]) -> bool {
        self.place.as_ref().map_or(false, |place| {
            let here = differences.iter().all(|other| other.call == place.call);
            here && differences.first() == Some(place) && (differences.len() == 1 || self.fault == Fault::One)
        })
    }
}
