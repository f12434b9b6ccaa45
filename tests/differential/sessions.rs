//! Sessions: an honest setup mostly, then batches that are mostly played as they should be, with wrong calls among them and damage to
//! what a step reads.

use crate::call::{Call, Step, BATCH};
use crate::compare::Comparison;
use crate::draw;
use crate::library::Record;
use crate::pair::{side_of, Pair, RECEIVER, SENDER};
use crate::random::Random;
use crate::twin::batch::{CHECK, CLOSED, READY};
use crate::twin::setup::{delta_of, sender_pads, xor_into, DONE};
use crate::twin::{gf64, sizes};

/// What is altered in a batch.
enum Damage {
    None,
    /// A bit of one of the ranges that the step reads.
    Bit(Step, usize),
    /// A bit of the key at the verify.
    Key,
    /// A receiver that guesses one tree's part of delta adds an error to that tree's correction, and the error's fold to the sent folds
    /// of the columns where its guess has a bit. A right guess is accepted.
    Guess {
        tree: usize,
        guess: usize,
        error: Vec<u8>,
    },
}

struct Session<'a> {
    comparison: &'a mut Comparison,
    pair: Pair,
}

pub fn play(comparison: &mut Comparison) -> Option<()> {
    let random = &mut comparison.random;
    let pair = Pair::new(draw::allowed_width(random), [Step::Open; 2].map(|step| draw::record(random, step)));
    let mut session = Session { comparison, pair };
    session.set_up()?;
    session.open()?;
    for _ in 0..1 + session.random().below(6) {
        let ready = |record: Record| record.stage == READY && record.width == session.pair.width;
        if !session.pair.sides.iter().all(|side| ready(side.record)) || session.random().one_in(8) {
            session.open()?;
        }
        session.batch()?;
    }
    Some(())
}

impl Session<'_> {
    fn random(&mut self) -> &mut Random {
        &mut self.comparison.random
    }

    fn call(&mut self, side: usize, step: Step) -> Call {
        self.pair.call(&mut self.comparison.random, side, step)
    }

    fn make(&mut self, side: usize, call: Call) -> Option<u32> {
        let outcome = self.comparison.call(call.clone())?;
        self.pair.keep(side, &call, &outcome);
        Some(outcome.answer)
    }

    fn set_up(&mut self) -> Option<()> {
        let call = self.call(RECEIVER, Step::ReceiverSetup);
        let (roots, base_pads) = (&call.ranges[0], &call.ranges[1]);
        let width = self.pair.width as usize;
        let delta = self.random().bytes(sizes::delta_length(width));
        let pads = sender_pads(width, &delta, base_pads);
        self.pair.sides[RECEIVER].held.insert("roots", roots.clone());
        self.pair.sides[SENDER].held.extend([("delta", delta), ("base_pads", pads)]);
        self.wrong(Step::ReceiverSetup)?;
        self.make(RECEIVER, call)?;
        self.wrong(Step::SenderSetup)?;
        let mut call = self.call(SENDER, Step::SenderSetup);
        if self.random().one_in(16) {
            self.random().flip(&mut call.ranges[2]);
        }
        self.make(SENDER, call)?;
        Some(())
    }

    /// Both sides open.
    fn open(&mut self) -> Option<()> {
        for side in [RECEIVER, SENDER] {
            let call = self.call(side, Step::Open);
            self.make(side, call)?;
        }
        Some(())
    }

    fn batch(&mut self) -> Option<()> {
        let last = self.pair.sides.iter().map(|side| side.record.last).max().unwrap();
        let random = &mut self.comparison.random;
        (self.pair.batch, self.pair.blocks, self.pair.key) = (
            draw::batch_above(random, last),
            draw::allowed_blocks(random),
            draw::usable_key(random),
        );
        let damage = self.damage();
        let mut damaged = false;
        for step in BATCH {
            self.wrong(step)?;
            let mut call = self.call(side_of(step), step);
            let honest = call.clone();
            damage.alter(&mut self.comparison.random, self.pair.width as usize, &mut call);
            let altered = call != honest;
            let answer = self.make(side_of(step), call)?;
            damaged |= altered && [DONE, CHECK].contains(&answer);
            if step == Step::SenderVerify && damaged {
                self.comparison.verified_damaged(answer);
            }
        }
        while self.pair.sides[SENDER].record.stage == CLOSED && !self.random().one_in(3) {
            let step = self.random().pick(&[Step::SenderCorrect, Step::SenderVerify]);
            let call = self.call(SENDER, step);
            self.make(SENDER, call)?;
        }
        Some(())
    }

    /// Now and then, wrong calls before the step: another step, a wrong length, an open, another number, or a key that isn't usable. Some
    /// of them are done.
    fn wrong(&mut self, step: Step) -> Option<()> {
        while self.random().one_in(5) {
            let mut side = side_of(step);
            let mut call = self.call(side, step);
            let random = &mut self.comparison.random;
            match (random.below(6), step) {
                (0, _) => {
                    let other = random.pick(&BATCH);
                    side = side_of(other);
                    call = self.call(side, other);
                }
                (1, _) => {
                    side = random.below(2);
                    call = self.call(side, Step::Open);
                    let random = self.random();
                    call.width = if random.one_in(4) {
                        draw::allowed_width(random)
                    } else {
                        draw::wrong_width(random)
                    };
                }
                (2, Step::ReceiverStart | Step::SenderCorrect) => call.batch = draw::batch_near(random, call.record.last),
                (3, Step::ReceiverStart | Step::SenderCorrect) => call.blocks = draw::blocks(random),
                (2 | 3, Step::ReceiverSetup | Step::SenderSetup) => call.width = draw::wrong_width(random),
                (2 | 3, Step::ReceiverAnswer | Step::SenderVerify) => {
                    call.key = draw::weak_key(random);
                    if random.one_in(3) {
                        draw::wrong_length(random, &mut call);
                    }
                }
                _ => draw::wrong_length(random, &mut call),
            }
            self.make(side, call)?;
        }
        Some(())
    }

    fn damage(&mut self) -> Damage {
        let width = self.pair.width as usize;
        let random = &mut self.comparison.random;
        match random.below(10) {
            0..=2 => {
                let step = random.pick(&BATCH);
                Damage::Bit(step, random.below(step.read().len()))
            }
            3 => Damage::Key,
            4 | 5 => {
                let tree = 1 + random.below(sizes::trees_of(width) - 1);
                let d = delta_of(width, &self.pair.sides[SENDER].held["delta"], tree);
                let guess = random.pick(&[d, d, d ^ 1, d ^ 1 << (width - 1), 0]);
                Damage::Guess {
                    tree,
                    guess,
                    error: random.bytes(sizes::column_length(width, 15)),
                }
            }
            _ => Damage::None,
        }
    }
}

impl Damage {
    fn alter(&self, random: &mut Random, width: usize, call: &mut Call) {
        match self {
            Damage::Bit(step, range) if *step == call.step => random.flip(&mut call.ranges[*range]),
            Damage::Key if call.step == Step::SenderVerify => call.key ^= 1 << random.below(64),
            Damage::Guess { tree, error, .. } if call.step == Step::SenderCorrect => {
                let length = call.ranges[2].len() / (sizes::trees_of(width) - 1);
                xor_into(&mut call.ranges[2][length * (tree - 1)..length * tree], &error[..length]);
            }
            Damage::Guess { tree, guess, error } if call.step == Step::SenderVerify => {
                let length = call.ranges[0].len() / sizes::columns(width);
                let fold = gf64::fold(call.key, &gf64::words(&error[..length])).to_le_bytes();
                for c in (0..width).filter(|b| guess >> b & 1 == 1).map(|b| tree * width + b) {
                    xor_into(&mut call.ranges[2][8 * (1 + c)..8 * (2 + c)], &fold);
                }
            }
            _ => (),
        }
    }
}
