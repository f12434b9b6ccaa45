//! The second implementation once more, in Rust: reference/ file by file, under its names, slow and plain. A step gives the answer's
//! number, the record if it has one, and what the ranges that it writes then hold: nothing where it leaves them.

pub mod batch;
pub mod chacha20;
pub mod file;
pub mod gf64;
pub mod setup;
pub mod sha256;
pub mod sizes;
