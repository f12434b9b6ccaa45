//! Plays random calls of the library's nine functions, and compares every answer, record, number and byte with the twin. First files are
//! read, then some are written, and then come the calls, which are those of the steps. A file that is taken is also written again, and one
//! that is written is read. Two batches whose numbers differ in the upper half alone are also compared with each other.
//!
//! usage: differential [--seed N] [--files N] [--writes N] [--calls N] [--plant bit|one|late|closed]
//!
//! Run from the repository's root. Exit status 0 if the library and the twin agree and every answer was given; 1 if not. With --plant what
//! the library leaves is altered in one call: a bit, or as it would be if key 1 were usable, if the key came after the lengths, or if a key
//! closed the record. The status is then 1 if just that is reported, 2 if not. The files depend on the seed alone, the writes on the seed
//! and the number of files, and the calls on both numbers too: fewer are the first ones.

mod apart;
mod call;
mod compare;
mod draw;
mod files;
mod library;
mod pair;
mod plant;
mod random;
mod sessions;
mod singles;
mod stored;
mod twin;
mod writes;

use compare::Comparison;
use plant::Fault;
use std::process::exit;

struct Options {
    seed: u64,
    files: usize,
    writes: usize,
    calls: usize,
    plant: Option<Fault>,
}

fn options() -> Option<Options> {
    let mut out = Options {
        seed: 8439,
        files: 10000,
        writes: 10000,
        calls: 40000,
        plant: None,
    };
    let mut given = std::env::args().skip(1);
    while let Some(option) = given.next() {
        match option.as_str() {
            "--seed" => out.seed = given.next()?.parse().ok()?,
            "--files" => out.files = given.next()?.parse().ok()?,
            "--writes" => out.writes = given.next()?.parse().ok()?,
            "--calls" => out.calls = given.next()?.parse().ok()?,
            "--plant" => out.plant = Some(Fault::named(&given.next()?)?),
            _ => return None,
        }
    }
    Some(out)
}

/// One play of steps, or nothing if all calls have been made. A session has some 28 calls, so more than half of all are in sessions.
fn play(comparison: &mut Comparison) -> Option<()> {
    match comparison.random.below(1000) {
        0 => singles::sweep(comparison),
        1..=50 => sessions::play(comparison),
        51..=70 => apart::play(comparison),
        _ => singles::play(comparison),
    }
}

fn main() {
    let options = options().unwrap_or_else(|| {
        eprintln!("usage: differential [--seed N] [--files N] [--writes N] [--calls N] [--plant bit|one|late|closed]");
        exit(2)
    });
    stored::published();
    stored::setups();
    stored::sessions();
    stored::files();
    stored::writes();
    let mut comparison = Comparison::new(options.seed, options.files + options.writes + options.calls, options.plant);
    for _ in 0..options.files {
        files::play(&mut comparison);
    }
    for _ in 0..options.writes {
        writes::play(&mut comparison);
    }
    comparison.allow(options.calls);
    // so that no run is without them
    let mut played = apart::sweep(&mut comparison).and_then(|_| singles::sweep(&mut comparison));
    while played.is_some() {
        played = play(&mut comparison);
    }
    exit(comparison.status());
}
