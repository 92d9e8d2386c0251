//! BLAKE2b (RFC 7693), unkeyed, with a chosen digest length and the
//! personalization bytes of the BLAKE2 specification.

/// The start words (RFC 7693, 2.6).
const IV: [u64; 8] = [
    0x6a09e667f3bcc908,
    0xbb67ae8584caa73b,
    0x3c6ef372fe94f82b,
    0xa54ff53a5f1d36f1,
    0x510e527fade682d1,
    0x9b05688c2b3e6c1f,
    0x1f83d9abfb41bd6b,
    0x5be0cd19137e2179,
];

/// The ten orders in which a block's words are used (RFC 7693, 2.7).
const SIGMA: [[usize; 16]; 10] = [
    [0, 1, 2, 3, 4, 5, 6, 7, 8, 9, 10, 11, 12, 13, 14, 15],
    [14, 10, 4, 8, 9, 15, 13, 6, 1, 12, 0, 2, 11, 7, 5, 3],
    [11, 8, 12, 0, 5, 2, 15, 13, 10, 14, 3, 6, 7, 1, 9, 4],
    [7, 9, 3, 1, 13, 12, 11, 14, 2, 6, 5, 10, 4, 0, 15, 8],
    [9, 0, 5, 7, 2, 4, 10, 15, 14, 1, 11, 12, 6, 8, 3, 13],
    [2, 12, 6, 10, 0, 11, 8, 3, 4, 13, 7, 5, 15, 14, 1, 9],
    [12, 5, 1, 15, 14, 13, 4, 10, 0, 7, 6, 3, 9, 2, 8, 11],
    [13, 11, 7, 14, 12, 1, 3, 9, 5, 0, 15, 4, 8, 6, 2, 10],
    [6, 15, 14, 9, 11, 3, 0, 8, 12, 2, 13, 7, 1, 4, 10, 5],
    [10, 2, 8, 4, 7, 6, 1, 5, 15, 11, 9, 14, 3, 12, 13, 0],
];

/// The columns and the diagonals that a round mixes, in order.
const LINES: [[usize; 4]; 8] = [
    [0, 4, 8, 12],
    [1, 5, 9, 13],
    [2, 6, 10, 14],
    [3, 7, 11, 15],
    [0, 5, 10, 15],
    [1, 6, 11, 12],
    [2, 7, 8, 13],
    [3, 4, 9, 14],
];

const ROUNDS: usize = 12;
const BLOCK: usize = 128;

/// The digest of `N` bytes (1 to 64) of a message, without a key.
pub fn blake2b<const N: usize>(personalization: &[u8; 16], message: &[u8]) -> [u8; N] {
    let mut state = start(N, personalization);
    let whole_blocks_before_last = message.len().saturating_sub(1) / BLOCK;
    let (before, last) = message.split_at(whole_blocks_before_last * BLOCK);
    let mut counted = 0u128;
    for block in before.as_chunks::<BLOCK>().0 {
        counted += BLOCK as u128;
        state = next_state(state, block, counted, false);
    }
    let mut block = [0; BLOCK];
    block[..last.len()].copy_from_slice(last);
    counted += last.len() as u128;
    digest(next_state(state, &block, counted, true))
}

/// The start words mixed with the parameter block: digest length, no key,
/// fan-out 1, depth 1, and the personalization at bytes 48 to 63.
fn start(digest_length: usize, personalization: &[u8; 16]) -> [u64; 8] {
    let mut parameters = [0u8; 64];
    parameters[0] = digest_length as u8;
    parameters[2] = 1;
    parameters[3] = 1;
    parameters[48..].copy_from_slice(personalization);
    let words = words::<8>(&parameters);
    std::array::from_fn(|i| IV[i] ^ words[i])
}

/// The compression F (RFC 7693, 3.2).
fn next_state(state: [u64; 8], block: &[u8; BLOCK], counted: u128, is_last: bool) -> [u64; 8] {
    let message = words::<16>(block);
    let mut v = [0; 16];
    v[..8].copy_from_slice(&state);
    v[8..].copy_from_slice(&IV);
    v[12] ^= counted as u64;
    v[13] ^= (counted >> 64) as u64;
    if is_last {
        v[14] = !v[14];
    }
    for round in 0..ROUNDS {
        let order = &SIGMA[round % 10];
        for (line, places) in LINES.iter().enumerate() {
            let x = message[order[2 * line]];
            let y = message[order[2 * line + 1]];
            mix(&mut v, *places, x, y);
        }
    }
    std::array::from_fn(|i| state[i] ^ v[i] ^ v[i + 8])
}

/// The mixing function G (RFC 7693, 3.1).
fn mix(v: &mut [u64; 16], [a, b, c, d]: [usize; 4], x: u64, y: u64) {
    v[a] = v[a].wrapping_add(v[b]).wrapping_add(x);
    v[d] = (v[d] ^ v[a]).rotate_right(32);
    v[c] = v[c].wrapping_add(v[d]);
    v[b] = (v[b] ^ v[c]).rotate_right(24);
    v[a] = v[a].wrapping_add(v[b]).wrapping_add(y);
    v[d] = (v[d] ^ v[a]).rotate_right(16);
    v[c] = v[c].wrapping_add(v[d]);
    v[b] = (v[b] ^ v[c]).rotate_right(63);
}

/// The first `N` little-endian words of these bytes.
fn words<const N: usize>(bytes: &[u8]) -> [u64; N] {
    let (words, _) = bytes.as_chunks::<8>();
    std::array::from_fn(|i| u64::from_le_bytes(words[i]))
}

/// The first `N` bytes of the state.
fn digest<const N: usize>(state: [u64; 8]) -> [u8; N] {
    let mut all = [0; 64];
    for (slot, word) in all.chunks_exact_mut(8).zip(state) {
        slot.copy_from_slice(&word.to_le_bytes());
    }
    std::array::from_fn(|i| all[i])
}
