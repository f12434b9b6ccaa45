//! The ChaCha20 block function, from RFC 8439 section 2, and the nonces of paper 01 and of paper 02, note 3.

/// The four words of "expand 32-byte k": RFC 8439, 2.3.
const HEAD: [u32; 4] = [0x61707865, 0x3320646e, 0x79622d32, 0x6b206574];

/// RFC 8439, 2.1.
fn quarter_round(state: &mut [u32; 16], a: usize, b: usize, c: usize, d: usize) {
    for (first, second) in [(16, 12), (8, 7)] {
        state[a] = state[a].wrapping_add(state[b]);
        state[d] = (state[d] ^ state[a]).rotate_left(first);
        state[c] = state[c].wrapping_add(state[d]);
        state[b] = (state[b] ^ state[c]).rotate_left(second);
    }
}

fn word(data: &[u8], number: usize) -> u32 {
    u32::from_le_bytes(data[4 * number..4 * number + 4].try_into().unwrap())
}

/// RFC 8439, 2.3.
pub fn block(key: &[u8; 32], counter: u32, nonce: &[u8; 12]) -> [u8; 64] {
    let start: [u32; 16] = std::array::from_fn(|i| match i {
        0..=3 => HEAD[i],
        4..=11 => word(key, i - 4),
        12 => counter,
        _ => word(nonce, i - 13),
    });
    let mut state = start;
    for _ in 0..10 {
        for i in 0..4 {
            quarter_round(&mut state, i, 4 + i, 8 + i, 12 + i);
        }
        for i in 0..4 {
            quarter_round(&mut state, i, 4 + (i + 1) % 4, 8 + (i + 2) % 4, 12 + (i + 3) % 4);
        }
    }
    let mut out = [0; 64];
    for i in 0..16 {
        out[4 * i..4 * i + 4].copy_from_slice(&state[i].wrapping_add(start[i]).to_le_bytes());
    }
    out
}

/// Paper 01, 'Trees and streams'. Its last 4 bytes, zero there, hold the upper half of the batch number: paper 02, note 3.
pub fn nonce(kind: u32, batch: u64) -> [u8; 12] {
    let mut out = [0; 12];
    out[..4].copy_from_slice(&kind.to_le_bytes());
    out[4..].copy_from_slice(&batch.to_le_bytes());
    out
}
