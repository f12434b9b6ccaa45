//! Words of 64 bits as polynomials over two elements, and the fold: paper 01, 'Folding and pads'.

const MODULUS: u128 = 1 << 64 | 0b11011;

/// The product without carries, then its remainder by the modulus, from the highest power down.
pub fn product(a: u64, b: u64) -> u64 {
    let mut whole = 0u128;
    for i in 0..64 {
        if b >> i & 1 == 1 {
            whole ^= u128::from(a) << i;
        }
    }
    for i in (64..=126).rev() {
        if whole >> i & 1 == 1 {
            whole ^= MODULUS << (i - 64);
        }
    }
    whole as u64
}

pub fn fold(key: u64, words: &[u64]) -> u64 {
    words.iter().fold(0, |value, word| product(value, key) ^ word)
}

pub fn words(data: &[u8]) -> Vec<u64> {
    data.chunks(8).map(|part| u64::from_le_bytes(part.try_into().unwrap())).collect()
}
