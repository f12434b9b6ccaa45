//! Files that would be read, but for damage at random: to what the head says and how long the bodies are, or to the bytes.

use crate::compare::Comparison;
use crate::draw;
use crate::random::Random;
use crate::twin::file::{self, HEAD, KEY, KINDS, SETUP};
use crate::twin::setup::DONE;
use crate::twin::sizes;
use crate::writes;

/// The answers that reading can give: include/softspoken.h.
pub const ANSWERS: [u32; 7] = [0, 1, 3, 4, 7, 8, 9];

/// One file. At least one thing is altered, but it may be one that doesn't matter: what the library finds is then written.
pub fn play(comparison: &mut Comparison) {
    let random = &mut comparison.random;
    let mut bodies = right(random);
    let (mut misstated, mut damaged) = (random.one_in(2), random.one_in(2));
    damaged |= !misstated;
    while misstated {
        misstate(random, &mut bodies);
        misstated = random.one_in(3);
    }
    let mut file = file::write(&bodies);
    while damaged {
        damage(random, &mut file, bodies.len());
        damaged = random.one_in(4);
    }
    let found = comparison.read(&file);
    if found.answer == DONE {
        writes::again(comparison, &file, found);
    }
}

/// The bodies of a file that is read, each with its kind.
fn right(random: &mut Random) -> Vec<(u32, Vec<u8>)> {
    let (width, blocks) = (draw::allowed_width(random), draw::allowed_blocks(random));
    let (head, absent) = (right_head(random, width as u8, blocks as u8), random.one_in(2));
    let kinds = KINDS.into_iter().filter(|kind| !absent || *kind != SETUP);
    kinds
        .map(|kind| match kind {
            HEAD => (kind, head.clone()),
            KEY => (kind, draw::usable_key(random).to_le_bytes().to_vec()),
            _ => (kind, random.bytes(file::body_length(width as usize, blocks as usize, kind))),
        })
        .collect()
}

/// A head of either length. A long one may hold a small number, too.
fn right_head(random: &mut Random, width: u8, blocks: u8) -> Vec<u8> {
    let batch = draw::batch_above(random, 0);
    if random.one_in(2) {
        file::head_body(width, blocks, batch)
    } else {
        file::short_head_body(width, blocks, (batch as u32).max(1))
    }
}

/// The body of a kind that every file has.
fn body_of(bodies: &mut [(u32, Vec<u8>)], of: u32) -> &mut Vec<u8> {
    &mut bodies.iter_mut().find(|(kind, _)| *kind == of).unwrap().1
}

/// The head says something else, or a body has another length, and the contents will say so; or the key isn't usable.
fn misstate(random: &mut Random, bodies: &mut [(u32, Vec<u8>)]) {
    if random.one_in(5) {
        return weak_key(random, body_of(bodies, KEY));
    }
    let at = random.below(bodies.len());
    let (width, blocks, other) = (draw::allowed_width(random), draw::allowed_blocks(random), random.below(20001));
    let head = body_of(bodies, HEAD);
    if file::head_length_right(head.len()) {
        match random.below(8) {
            0 => return head[0] = draw::wrong_width(random) as u8,
            1 => return head[1] = draw::wrong_blocks(random) as u8,
            2 => return other_batch(random, head),
            3 => (head[0], head[1]) = (width as u8, blocks as u8), // so a body may get the length that it then has
            4 | 5 => return other_head_length(random, head),
            _ => (),
        }
    }
    let (kind, body) = &mut bodies[at];
    let (now, named) = (body.len(), file::body_length(width as usize, blocks as usize, *kind));
    let length = random.pick(&[now.saturating_sub(1), now + 1, 0, 5, 10, named, other]);
    body.resize(length, 0x5a);
}

/// The key isn't usable; its body stays as long as it is.
fn weak_key(random: &mut Random, key: &mut [u8]) {
    key.fill(0);
    key.iter_mut().take(1).for_each(|byte| *byte = draw::weak_key(random) as u8);
}

/// The head's batch number is another, that may be 0, or 0 in one half.
fn other_batch(random: &mut Random, head: &mut [u8]) {
    let batch = draw::batch_near(random, 0).to_le_bytes();
    let length = head.len() - 2;
    head[2..].copy_from_slice(&batch[..length]);
}

/// The head gets either of its lengths, which leaves its number as it was, cut or higher; or one beside them.
fn other_head_length(random: &mut Random, head: &mut Vec<u8>) {
    let (short, long) = (sizes::short_head_length(), sizes::head_length());
    let length = random.pick(&[short, short, long, long, short - 1, short + 1, short + 2, long - 1, long + 1]);
    head.resize(length, random.pick(&[0, 0x5a]));
}

/// Alters a file's bytes. Most damage is to the contents, as they were laid for so many entries; a file may have been cut before they end.
fn damage(random: &mut Random, file: &mut Vec<u8>, entries: usize) {
    let contents = sizes::contents_length(entries);
    let e = random.below(entries);
    match random.below(10) {
        0 => random.flip(file),
        1 => {
            let length = contents.min(file.len());
            random.flip(&mut file[..length]);
        }
        2 => {
            let length = (contents + sizes::head_length()).min(file.len());
            if length > 0 {
                file[random.below(length)] = random.number() as u8;
            }
        }
        3 => {
            let (near, any) = (random.below(contents + 8), random.below(file.len() + 1));
            let cut = random.pick(&[file.len().saturating_sub(1), near, near, any]);
            file.truncate(cut);
        }
        4 => {
            let more = random.pick(&[1, 1, 2, 12, 1032]);
            let added = random.bytes(more);
            file.extend(added);
        }
        5 => swap(random, file, e, entries),
        6 => shift(random, file, e, entries),
        _ => set(random, file, entries),
    }
}

/// A number of the contents: 0 is the count, then there are three for each entry. Nothing, where the file ends before.
fn word(file: &[u8], number: usize) -> Option<u32> {
    let bytes = file.get(4 * number..4 * number + 4)?;
    Some(u32::from_le_bytes(bytes.try_into().unwrap()))
}

fn set_word(file: &mut [u8], number: usize, value: u32) {
    if let Some(bytes) = file.get_mut(4 * number..4 * number + 4) {
        bytes.copy_from_slice(&value.to_le_bytes());
    }
}

/// Two entries change places, or one number of both.
fn swap(random: &mut Random, file: &mut [u8], e: usize, entries: usize) {
    let (other, only) = (random.below(entries), random.below(6));
    for field in (0..3).filter(|field| only >= 3 || *field == only) {
        let (here, there) = (1 + 3 * e + field, 1 + 3 * other + field);
        if let (Some(x), Some(y)) = (word(file, here), word(file, there)) {
            set_word(file, here, y);
            set_word(file, there, x);
        }
    }
}

/// The bound between a body and the next one is elsewhere, in both entries: by what makes a head as long as the other kind of head, or by
/// so much that the sums may pass 32 bits, too.
fn shift(random: &mut Random, file: &mut [u8], e: usize, entries: usize) {
    let (any, longer) = (random.number() as u32, (sizes::head_length() - sizes::short_head_length()) as u32);
    let by = random.pick(&[1, u32::MAX, longer, longer.wrapping_neg(), 1 << 31, 1 << 30, any]);
    let fields = [(3 + 3 * e, by), (2 + 3 * (e + 1), by), (3 + 3 * (e + 1), by.wrapping_neg())];
    for (number, added) in fields.into_iter().filter(|(number, _)| *number <= 3 * entries) {
        if let Some(value) = word(file, number) {
            set_word(file, number, value.wrapping_add(added));
        }
    }
}

/// One number is another: near the right one, that of another place, or extreme.
fn set(random: &mut Random, file: &mut [u8], entries: usize) {
    let number = if random.one_in(6) { 0 } else { 1 + random.below(3 * entries) };
    let (length, any) = (file.len() as u32, random.number() as u32);
    let elsewhere = word(file, random.below(1 + 3 * entries)).unwrap_or(any);
    if let Some(now) = word(file, number) {
        let near = [
            now.wrapping_sub(1),
            now.wrapping_add(1),
            now ^ 1 << random.below(32),
            now.wrapping_add(1 << 31),
            9u32.wrapping_sub(now),
        ];
        let far = [0, u32::MAX, length, length.wrapping_sub(now), now.wrapping_neg(), elsewhere, any];
        let value = if random.one_in(2) { random.pick(&near) } else { random.pick(&far) };
        set_word(file, number, value);
    }
}
