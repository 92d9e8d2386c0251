// The bench of the hashes: the proved crates' functions, linked in from a static library, beside plain
// Rust that does the same. One build has one way of each hash, named by --cfg sha="WAY" and
// --cfg blake="WAY", so that no way changes what the compiler makes of another.
//   hashes check              both sides give the same digests, and those of the standards
//   hashes run WORK SIDE N    N calls, for an instruction counter; SIDE is proved, rust or nothing
#![allow(unexpected_cfgs, improper_ctypes, improper_ctypes_definitions)]
use std::hint::black_box;

const K: [u32; 64] = [
    0x428a2f98, 0x71374491, 0xb5c0fbcf, 0xe9b5dba5, 0x3956c25b, 0x59f111f1, 0x923f82a4, 0xab1c5ed5,
    0xd807aa98, 0x12835b01, 0x243185be, 0x550c7dc3, 0x72be5d74, 0x80deb1fe, 0x9bdc06a7, 0xc19bf174,
    0xe49b69c1, 0xefbe4786, 0x0fc19dc6, 0x240ca1cc, 0x2de92c6f, 0x4a7484aa, 0x5cb0a9dc, 0x76f988da,
    0x983e5152, 0xa831c66d, 0xb00327c8, 0xbf597fc7, 0xc6e00bf3, 0xd5a79147, 0x06ca6351, 0x14292967,
    0x27b70a85, 0x2e1b2138, 0x4d2c6dfc, 0x53380d13, 0x650a7354, 0x766a0abb, 0x81c2c92e, 0x92722c85,
    0xa2bfe8a1, 0xa81a664b, 0xc24b8b70, 0xc76c51a3, 0xd192e819, 0xd6990624, 0xf40e3585, 0x106aa070,
    0x19a4c116, 0x1e376c08, 0x2748774c, 0x34b0bcb5, 0x391c0cb3, 0x4ed8aa4a, 0x5b9cca4f, 0x682e6ff3,
    0x748f82ee, 0x78a5636f, 0x84c87814, 0x8cc70208, 0x90befffa, 0xa4506ceb, 0xbef9a3f7, 0xc67178f2,
];

const START: [u32; 8] =
    [0x6a09e667, 0xbb67ae85, 0x3c6ef372, 0xa54ff53a, 0x510e527f, 0x9b05688c, 0x1f83d9ab, 0x5be0cd19];

const IV: [u64; 8] = [
    0x6a09e667f3bcc908, 0xbb67ae8584caa73b, 0x3c6ef372fe94f82b, 0xa54ff53a5f1d36f1,
    0x510e527fade682d1, 0x9b05688c2b3e6c1f, 0x1f83d9abfb41bd6b, 0x5be0cd19137e2179,
];

// Rows 10 and 11 are the first two again.
const SIGMA: [[u8; 16]; 12] = [
    [0, 1, 2, 3, 4, 5, 6, 7, 8, 9, 10, 11, 12, 13, 14, 15],
    [14, 10, 4, 8, 9, 15, 13, 6, 1, 12, 0, 2, 11, 7, 5, 3],
    [11, 8, 12, 0, 5, 2, 15, 13, 10, 14, 3, 6, 7, 1, 9, 4],
    [7, 9, 3, 1, 13, 12, 11, 14, 2, 6, 5, 10, 4, 0, 15, 8],
    [9, 0, 5, 7, 2, 4, 10, 15, 14, 1, 11, 12, 6, 8, 3, 13],
    [2, 12, 6, 10, 0, 11, 8, 3, 4, 13, 7, 5, 15, 14, 1, 9],
    [12, 5, 1, 15, 14, 13, 4, 10, 0, 7, 6, 3, 9, 2, 8, 11],
    [13, 11, 7, 14, 12, 1, 3, 9, 5, 0, 15, 4, 8, 6, 2, 10],
    [6, 15, 14, 9, 11, 3, 0, 8, 12, 2, 13, 7, 1, 4, 10, 5],
    [10, 2, 8, 4, 7, 6, 1, 5, 15, 11, 9, 14, 3, 12, 13, 0],
    [0, 1, 2, 3, 4, 5, 6, 7, 8, 9, 10, 11, 12, 13, 14, 15],
    [14, 10, 4, 8, 9, 15, 13, 6, 1, 12, 0, 2, 11, 7, 5, 3],
];

// ---- SHA-256

fn small0(x: u32) -> u32 {
    x.rotate_right(7) ^ x.rotate_right(18) ^ (x >> 3)
}

fn small1(x: u32) -> u32 {
    x.rotate_right(17) ^ x.rotate_right(19) ^ (x >> 10)
}

// The word that follows, from those 2, 7, 15 and 16 back.
fn next(w2: u32, w7: u32, w15: u32, w16: u32) -> u32 {
    small1(w2).wrapping_add(w7).wrapping_add(small0(w15)).wrapping_add(w16)
}

fn round(s: &mut [u32; 8], k: u32, w: u32) {
    let [a, b, c, d, e, f, g, h] = *s;
    let big1 = e.rotate_right(6) ^ e.rotate_right(11) ^ e.rotate_right(25);
    let ch = (e & f) ^ (!e & g);
    let t1 = h.wrapping_add(big1).wrapping_add(ch).wrapping_add(k).wrapping_add(w);
    let big0 = a.rotate_right(2) ^ a.rotate_right(13) ^ a.rotate_right(22);
    let maj = (a & b) ^ (a & c) ^ (b & c);
    let t2 = big0.wrapping_add(maj);
    *s = [t1.wrapping_add(t2), a, b, c, d.wrapping_add(t1), e, f, g];
}

fn word(block: &[u8; 64], i: usize) -> u32 {
    u32::from_be_bytes(block[4 * i..4 * i + 4].try_into().unwrap())
}

// A block's words, with room for N - 16 more.
#[cfg(not(sha = "together"))]
fn words<const N: usize>(block: &[u8; 64]) -> [u32; N] {
    let mut w = [0u32; N];
    for i in 0..16 {
        w[i] = word(block, i);
    }
    w
}

// What a block's 64 rounds make of a state. Plain: the schedule in one loop, the rounds in another.
#[cfg(sha = "apart")]
fn rounds(state: &[u32; 8], block: &[u8; 64]) -> [u32; 8] {
    let mut w: [u32; 64] = words(block);
    for i in 16..64 {
        w[i] = next(w[i - 2], w[i - 7], w[i - 15], w[i - 16]);
    }
    let mut s = *state;
    for i in 0..64 {
        round(&mut s, K[i], w[i]);
    }
    s
}

// Plain: one loop, each word of the schedule made in the round that takes it.
#[cfg(sha = "together")]
fn rounds(state: &[u32; 8], block: &[u8; 64]) -> [u32; 8] {
    let mut w = [0u32; 64];
    let mut s = *state;
    for i in 0..64 {
        w[i] = if i < 16 { word(block, i) } else { next(w[i - 2], w[i - 7], w[i - 15], w[i - 16]) };
        round(&mut s, K[i], w[i]);
    }
    s
}

// Plain: the last sixteen words only, each put in the place of the one that is sixteen back.
#[cfg(sha = "window")]
fn rounds(state: &[u32; 8], block: &[u8; 64]) -> [u32; 8] {
    let mut w: [u32; 16] = words(block);
    let mut s = *state;
    for k in K.chunks_exact(16) {
        for i in 0..16 {
            round(&mut s, k[i], w[i]);
            w[i] = next(w[(i + 14) % 16], w[(i + 9) % 16], w[(i + 1) % 16], w[i]);
        }
    }
    s
}

// Tuned: in the shape of the proved crate, four words of the schedule a turn, eight rounds a turn.
#[cfg(sha = "shaped")]
#[inline(always)]
fn rounds(state: &[u32; 8], block: &[u8; 64]) -> [u32; 8] {
    let mut w: [u32; 64] = words(block);
    for j in 0..12 {
        for i in 4 * j + 16..4 * j + 20 {
            w[i] = next(w[i - 2], w[i - 7], w[i - 15], w[i - 16]);
        }
    }
    let mut s = *state;
    for (k, w) in K.chunks_exact(8).zip(w.chunks_exact(8)) {
        for i in 0..8 {
            round(&mut s, k[i], w[i]);
        }
    }
    s
}

// Tuned: no loop, all 64 rounds over a window of sixteen words written out.
#[cfg(sha = "written")]
fn rounds(state: &[u32; 8], block: &[u8; 64]) -> [u32; 8] {
    let mut w: [u32; 16] = words(block);
    let mut s = *state;
    macro_rules! sixteen {
        ($from:literal: $($i:literal)*) => {$(
            if $from > 0 {
                w[$i] = next(w[($i + 14) % 16], w[($i + 9) % 16], w[($i + 1) % 16], w[$i]);
            }
            round(&mut s, K[$from + $i], w[$i]);
        )*};
    }
    sixteen!(0: 0 1 2 3 4 5 6 7 8 9 10 11 12 13 14 15);
    sixteen!(16: 0 1 2 3 4 5 6 7 8 9 10 11 12 13 14 15);
    sixteen!(32: 0 1 2 3 4 5 6 7 8 9 10 11 12 13 14 15);
    sixteen!(48: 0 1 2 3 4 5 6 7 8 9 10 11 12 13 14 15);
    s
}

fn absorb(state: &mut [u32; 8], block: &[u8; 64]) {
    let s = rounds(state, block);
    for (x, y) in state.iter_mut().zip(s) {
        *x = x.wrapping_add(y);
    }
}

fn digest(state: [u32; 8]) -> [u8; 32] {
    let mut d = [0u8; 32];
    for (o, x) in d.chunks_exact_mut(4).zip(state) {
        o.copy_from_slice(&x.to_be_bytes());
    }
    d
}

fn compress(block: &[u8; 64]) -> [u8; 32] {
    let mut s = START;
    absorb(&mut s, block);
    digest(s)
}

fn compress_halves(l: &[u8; 32], r: &[u8; 32]) -> [u8; 32] {
    let mut b = [0u8; 64];
    b[..32].copy_from_slice(l);
    b[32..].copy_from_slice(r);
    compress(&b)
}

fn hash(m: &[u8]) -> [u8; 32] {
    let mut s = START;
    let mut blocks = m.chunks_exact(64);
    for b in &mut blocks {
        absorb(&mut s, b.try_into().unwrap());
    }
    let rest = blocks.remainder();
    let mut last = [0u8; 64];
    last[..rest.len()].copy_from_slice(rest);
    last[rest.len()] = 0x80;
    if rest.len() >= 56 {
        absorb(&mut s, &last);
        last = [0u8; 64];
    }
    last[56..].copy_from_slice(&(8 * m.len() as u64).to_be_bytes());
    absorb(&mut s, &last);
    digest(s)
}

// ---- BLAKE2b

fn g(v: &mut [u64; 16], a: usize, b: usize, c: usize, d: usize, x: u64, y: u64) {
    v[a] = v[a].wrapping_add(v[b]).wrapping_add(x);
    v[d] = (v[d] ^ v[a]).rotate_right(32);
    v[c] = v[c].wrapping_add(v[d]);
    v[b] = (v[b] ^ v[c]).rotate_right(24);
    v[a] = v[a].wrapping_add(v[b]).wrapping_add(y);
    v[d] = (v[d] ^ v[a]).rotate_right(16);
    v[c] = v[c].wrapping_add(v[d]);
    v[b] = (v[b] ^ v[c]).rotate_right(63);
}

// One round, of which word(j) is the word of the block that it takes at its place j.
#[cfg_attr(blake = "written", inline(always))]
fn mix(v: &mut [u64; 16], word: impl Fn(usize) -> u64) {
    g(v, 0, 4, 8, 12, word(0), word(1));
    g(v, 1, 5, 9, 13, word(2), word(3));
    g(v, 2, 6, 10, 14, word(4), word(5));
    g(v, 3, 7, 11, 15, word(6), word(7));
    g(v, 0, 5, 10, 15, word(8), word(9));
    g(v, 1, 6, 11, 12, word(10), word(11));
    g(v, 2, 7, 8, 13, word(12), word(13));
    g(v, 3, 4, 9, 14, word(14), word(15));
}

// What the twelve rounds make of the work vector. Plain: a round's row by its number.
#[cfg(blake = "numbered")]
fn mixed(v: &mut [u64; 16], m: &[u64; 16]) {
    for i in 0..12 {
        mix(v, |j| m[SIGMA[i][j] as usize]);
    }
}

// Plain: a round's row by its number modulo ten.
#[cfg(blake = "modulo")]
fn mixed(v: &mut [u64; 16], m: &[u64; 16]) {
    for i in 0..12 {
        mix(v, |j| m[SIGMA[i % 10][j] as usize]);
    }
}

// Plain: row after row.
#[cfg(blake = "rows")]
fn mixed(v: &mut [u64; 16], m: &[u64; 16]) {
    for row in &SIGMA {
        mix(v, |j| m[row[j] as usize]);
    }
}

// Tuned: no loop, all twelve rounds written out.
#[cfg(blake = "written")]
fn mixed(v: &mut [u64; 16], m: &[u64; 16]) {
    macro_rules! twelve {
        ($($i:literal)*) => {$(
            mix(v, |j| m[SIGMA[$i][j] as usize]);
        )*};
    }
    twelve!(0 1 2 3 4 5 6 7 8 9 10 11);
}

fn absorb_blake(h: &mut [u64; 8], block: &[u8; 128], t: u64, last: bool) {
    let mut m = [0u64; 16];
    for (x, b) in m.iter_mut().zip(block.chunks_exact(8)) {
        *x = u64::from_le_bytes(b.try_into().unwrap());
    }
    let mut v = [0u64; 16];
    v[..8].copy_from_slice(h);
    v[8..].copy_from_slice(&IV);
    v[12] ^= t;
    if last {
        v[14] = !v[14];
    }
    mixed(&mut v, &m);
    for i in 0..8 {
        h[i] ^= v[i] ^ v[i + 8];
    }
}

fn hash32(m: &[u8], personal: &[u8; 16]) -> [u8; 32] {
    let mut h = IV;
    h[0] ^= 0x01010000 ^ 32;
    h[6] ^= u64::from_le_bytes(personal[..8].try_into().unwrap());
    h[7] ^= u64::from_le_bytes(personal[8..].try_into().unwrap());
    let mut rest = m;
    let mut t = 0;
    while rest.len() > 128 {
        t += 128;
        absorb_blake(&mut h, rest[..128].try_into().unwrap(), t, false);
        rest = &rest[128..];
    }
    let mut last = [0u8; 128];
    last[..rest.len()].copy_from_slice(rest);
    absorb_blake(&mut h, &last, m.len() as u64, true);
    let mut d = [0u8; 32];
    for (o, x) in d.chunks_exact_mut(8).zip(h) {
        o.copy_from_slice(&x.to_le_bytes());
    }
    d
}

// ---- The sides

// Each side's functions behind the same kind of pointer, so that the same code calls them.
struct Side {
    compress: unsafe extern "C" fn(&[u8; 64], &mut [u8; 32]),
    compress_halves: unsafe extern "C" fn(&[u8; 32], &[u8; 32], &mut [u8; 32]),
    hash: unsafe extern "C" fn(&[u8], &mut [u8; 32]),
    hash32: unsafe extern "C" fn(&[u8], &[u8; 16], &mut [u8; 32]),
}

// A slice goes over as its address and its length. Nothing checks these lines against the proved source.
extern "C" {
    fn hashes_compress(b: &[u8; 64], out: &mut [u8; 32]);
    fn hashes_compress_halves(l: &[u8; 32], r: &[u8; 32], out: &mut [u8; 32]);
    fn hashes_hash(m: &[u8], out: &mut [u8; 32]);
    fn hashes_hash32(m: &[u8], personal: &[u8; 16], out: &mut [u8; 32]);
}

const PROVED: Side = Side {
    compress: hashes_compress,
    compress_halves: hashes_compress_halves,
    hash: hashes_hash,
    hash32: hashes_hash32,
};

// A function of C's kind that puts a value out.
macro_rules! puts {
    (|$($x:ident: $t:ty),*| $value:expr) => {{
        #[inline(never)]
        extern "C" fn put($($x: $t,)* out: &mut [u8; 32]) {
            *out = $value;
        }
        put
    }};
}

const RUST: Side = Side {
    compress: puts!(|b: &[u8; 64]| compress(b)),
    compress_halves: puts!(|l: &[u8; 32], r: &[u8; 32]| compress_halves(l, r)),
    hash: puts!(|m: &[u8]| hash(m)),
    hash32: puts!(|m: &[u8], personal: &[u8; 16]| hash32(m, personal)),
};

// A function of C's kind that does nothing: what it counts is the call, to be taken off.
macro_rules! idle {
    ($($t:ty),*) => {{
        #[inline(never)]
        extern "C" fn idle($(_: $t,)* _: &mut [u8; 32]) {}
        idle
    }};
}

const NOTHING: Side = Side {
    compress: idle!(&[u8; 64]),
    compress_halves: idle!(&[u8; 32], &[u8; 32]),
    hash: idle!(&[u8]),
    hash32: idle!(&[u8], &[u8; 16]),
};

// Some bytes, other ones for each seed.
fn some<const N: usize>(seed: u64) -> [u8; N] {
    let mut x = seed.wrapping_mul(0x9e3779b97f4a7c15) | 1;
    [0u8; N].map(|_| {
        x ^= x << 13;
        x ^= x >> 7;
        x ^= x << 17;
        x as u8
    })
}

fn run(side: &Side, work: &str, n: u64) {
    let (block, l, r) = (some::<64>(1), some::<32>(2), some::<32>(3));
    let (message, data, personal) = (some::<105>(4), some::<128>(5), some::<16>(6));
    let mut out = [0u8; 32];
    for _ in 0..n {
        let out = black_box(&mut out);
        // black_box, so that no side's code is fitted to these bytes or to their number
        unsafe {
            match work {
                "compress" => (side.compress)(black_box(&block), out),
                "compress_halves" => (side.compress_halves)(black_box(&l), black_box(&r), out),
                "hash" => (side.hash)(black_box(&message), out),
                "hash32" => (side.hash32)(black_box(&data), black_box(&personal), out),
                _ => panic!("no work {work}"),
            }
        }
    }
}

// What both sides put out.
fn agreed(put: impl Fn(&Side, &mut [u8; 32])) -> [u8; 32] {
    let (mut x, mut y) = ([0u8; 32], [1u8; 32]);
    put(&PROVED, &mut x);
    put(&RUST, &mut y);
    assert_eq!(x, y);
    x
}

fn check() {
    for seed in 0..200 {
        let (block, l, r) = (some::<64>(seed), some::<32>(seed + 1), some::<32>(seed + 2));
        agreed(|s, out| unsafe { (s.compress)(&block, out) });
        agreed(|s, out| unsafe { (s.compress_halves)(&l, &r, out) });
        let (message, personal) = (some::<600>(seed), some::<16>(seed + 3));
        for m in [&message[..105], &message[..128], &message[..3 * seed as usize]] {
            agreed(|s, out| unsafe { (s.hash)(m, out) });
            agreed(|s, out| unsafe { (s.hash32)(m, &personal, out) });
        }
    }
    // "abc" by FIPS 180-4's example, and by RFC 7693 with a digest of 32 bytes
    let d = agreed(|s, out| unsafe { (s.hash)(b"abc", out) });
    assert_eq!(d[..8], 0xba7816bf8f01cfea_u64.to_be_bytes());
    let d = agreed(|s, out| unsafe { (s.hash32)(b"abc", &[0; 16], out) });
    assert_eq!(d[..8], 0xbddd813c63423972_u64.to_be_bytes());
}

fn main() {
    let words: Vec<String> = std::env::args().skip(1).collect();
    match words.iter().map(String::as_str).collect::<Vec<_>>()[..] {
        ["check"] => check(),
        ["run", work, side, n] => {
            let side = match side {
                "proved" => PROVED,
                "rust" => RUST,
                "nothing" => NOTHING,
                _ => panic!("no side {side}"),
            };
            run(black_box(&side), work, n.parse().unwrap());
        }
        _ => panic!("hashes check | hashes run WORK SIDE N"),
    }
}
