// A lean judge in plain Rust: what an engineer writes who knows the rules and cares for speed a little.
// The ledger's table is a sorted run of rows in memory that the caller lends, searched by halves; nothing
// is allocated, nothing is hashed before the cheap tests have passed, and hSig is hashed once. The checks
// and their order are those of the proved judge.
// Of a case two parts are read, what stands before the proof and what stands behind the ciphertexts: both are the same
// in either edition, and the second is the file's end, so that of the edition nothing but the file's length is asked.
// The hashes are the quickest of the plain forms in hashes.rs. How the table is looked through for damage is chosen
// by --cfg rows="WAY": plain, as the language compares rows, or words, which is tuned. Nothing else is.

pub type Row = [u8; 32];

const K: [u32; 64] = [
    0x428a2f98, 0x71374491, 0xb5c0fbcf, 0xe9b5dba5, 0x3956c25b, 0x59f111f1, 0x923f82a4, 0xab1c5ed5,
    0xd807aa98, 0x12835b01, 0x243185be, 0x550c7dc3, 0x72be5d74, 0x80deb1fe, 0x9bdc06a7, 0xc19bf174,
    0xe49b69c1, 0xefbe4786, 0x0fc19dc6, 0x240ca1cc, 0x2de92c6f, 0x4a7484aa, 0x5cb0a9dc, 0x76f988da,
    0x983e5152, 0xa831c66d, 0xb00327c8, 0xbf597fc7, 0xc6e00bf3, 0xd5a79147, 0x06ca6351, 0x14292967,
    0x27b70a85, 0x2e1b2138, 0x4d2c6dfc, 0x53380d13, 0x650a7354, 0x766a0abb, 0x81c2c92e, 0x92722c85,
    0xa2bfe8a1, 0xa81a664b, 0xc24b8b70, 0xc76c51a3, 0xd192e819, 0xd6990624, 0xf40e3585, 0x106aa070,
    0x19a4c116, 0x1e376c08, 0x2748774c, 0x34b0bcb5, 0x391c0cb3, 0x4ed8aa4a, 0x5b9cca4f, 0x682e6ff3,
    0x748f82ee, 0x78a5636f, 0x84c87814, 0x8cc70208, 0x90befffa, 0xa4506ceb, 0xbef9a3f7, 0xc67178f2,
];

const START: [u32; 8] =
    [0x6a09e667, 0xbb67ae85, 0x3c6ef372, 0xa54ff53a, 0x510e527f, 0x9b05688c, 0x1f83d9ab, 0x5be0cd19];

const IV: [u64; 8] = [
    0x6a09e667f3bcc908, 0xbb67ae8584caa73b, 0x3c6ef372fe94f82b, 0xa54ff53a5f1d36f1,
    0x510e527fade682d1, 0x9b05688c2b3e6c1f, 0x1f83d9abfb41bd6b, 0x5be0cd19137e2179,
];

// Rows 10 and 11 are the first two again.
const SIGMA: [[u8; 16]; 12] = [
    [0, 1, 2, 3, 4, 5, 6, 7, 8, 9, 10, 11, 12, 13, 14, 15],
    [14, 10, 4, 8, 9, 15, 13, 6, 1, 12, 0, 2, 11, 7, 5, 3],
    [11, 8, 12, 0, 5, 2, 15, 13, 10, 14, 3, 6, 7, 1, 9, 4],
    [7, 9, 3, 1, 13, 12, 11, 14, 2, 6, 5, 10, 4, 0, 15, 8],
    [9, 0, 5, 7, 2, 4, 10, 15, 14, 1, 11, 12, 6, 8, 3, 13],
    [2, 12, 6, 10, 0, 11, 8, 3, 4, 13, 7, 5, 15, 14, 1, 9],
    [12, 5, 1, 15, 14, 13, 4, 10, 0, 7, 6, 3, 9, 2, 8, 11],
    [13, 11, 7, 14, 12, 1, 3, 9, 5, 0, 15, 4, 8, 6, 2, 10],
    [6, 15, 14, 9, 11, 3, 0, 8, 12, 2, 13, 7, 1, 4, 10, 5],
    [10, 2, 8, 4, 7, 6, 1, 5, 15, 11, 9, 14, 3, 12, 13, 0],
    [0, 1, 2, 3, 4, 5, 6, 7, 8, 9, 10, 11, 12, 13, 14, 15],
    [14, 10, 4, 8, 9, 15, 13, 6, 1, 12, 0, 2, 11, 7, 5, 3],
];

// ---- SHA-256

fn absorb(state: &mut [u32; 8], block: &[u8; 64]) {
    let mut w = [0u32; 64];
    for i in 0..16 {
        w[i] = u32::from_be_bytes(block[4 * i..4 * i + 4].try_into().unwrap());
    }
    for i in 16..64 {
        let (x, y) = (w[i - 15], w[i - 2]);
        let small0 = x.rotate_right(7) ^ x.rotate_right(18) ^ (x >> 3);
        let small1 = y.rotate_right(17) ^ y.rotate_right(19) ^ (y >> 10);
        w[i] = small1.wrapping_add(w[i - 7]).wrapping_add(small0).wrapping_add(w[i - 16]);
    }
    let mut s = *state;
    for i in 0..64 {
        round(&mut s, K[i], w[i]);
    }
    for (x, y) in state.iter_mut().zip(s) {
        *x = x.wrapping_add(y);
    }
}

fn round(s: &mut [u32; 8], k: u32, w: u32) {
    let [a, b, c, d, e, f, g, h] = *s;
    let big1 = e.rotate_right(6) ^ e.rotate_right(11) ^ e.rotate_right(25);
    let ch = (e & f) ^ (!e & g);
    let t1 = h.wrapping_add(big1).wrapping_add(ch).wrapping_add(k).wrapping_add(w);
    let big0 = a.rotate_right(2) ^ a.rotate_right(13) ^ a.rotate_right(22);
    let maj = (a & b) ^ (a & c) ^ (b & c);
    let t2 = big0.wrapping_add(maj);
    *s = [t1.wrapping_add(t2), a, b, c, d.wrapping_add(t1), e, f, g];
}

fn digest(state: [u32; 8]) -> Row {
    let mut d = [0u8; 32];
    for (o, x) in d.chunks_exact_mut(4).zip(state) {
        o.copy_from_slice(&x.to_be_bytes());
    }
    d
}

fn compress(block: &[u8; 64]) -> Row {
    let mut s = START;
    absorb(&mut s, block);
    digest(s)
}

fn parent(l: &Row, r: &Row) -> Row {
    let mut b = [0u8; 64];
    b[..32].copy_from_slice(l);
    b[32..].copy_from_slice(r);
    compress(&b)
}

// Four bits of tag, the 252 bits of a key, and 32 bytes more.
fn tagged(tag: u8, key: &Row, rest: &Row) -> Row {
    let mut b = [0u8; 64];
    b[..32].copy_from_slice(key);
    b[32..].copy_from_slice(rest);
    b[0] = tag << 4 | key[0] & 0x0f;
    compress(&b)
}

// The full hash of a note's 105 bytes, which are two blocks with their padding.
fn commitment(a_pk: &Row, value: &[u8; 8], rho: &Row, r: &Row) -> Row {
    let mut m = [0u8; 128];
    m[0] = 0xb0;
    m[1..33].copy_from_slice(a_pk);
    m[33..41].copy_from_slice(value);
    m[41..73].copy_from_slice(rho);
    m[73..105].copy_from_slice(r);
    m[105] = 0x80;
    m[120..].copy_from_slice(&(8 * 105u64).to_be_bytes());
    let mut s = START;
    absorb(&mut s, m[..64].try_into().unwrap());
    absorb(&mut s, m[64..].try_into().unwrap());
    digest(s)
}

// ---- BLAKE2b

fn g(v: &mut [u64; 16], a: usize, b: usize, c: usize, d: usize, x: u64, y: u64) {
    v[a] = v[a].wrapping_add(v[b]).wrapping_add(x);
    v[d] = (v[d] ^ v[a]).rotate_right(32);
    v[c] = v[c].wrapping_add(v[d]);
    v[b] = (v[b] ^ v[c]).rotate_right(24);
    v[a] = v[a].wrapping_add(v[b]).wrapping_add(y);
    v[d] = (v[d] ^ v[a]).rotate_right(16);
    v[c] = v[c].wrapping_add(v[d]);
    v[b] = (v[b] ^ v[c]).rotate_right(63);
}

// One block of 128 bytes, the first and the last.
fn h_sig(case: Case) -> Row {
    let mut m = [0u64; 16];
    let parts: [&Row; 4] = [case.front(208), case.front(48), case.front(80), case.back(KEY)];
    for (x, b) in m.iter_mut().zip(parts.iter().flat_map(|part| part.chunks_exact(8))) {
        *x = u64::from_le_bytes(b.try_into().unwrap());
    }
    let mut h = IV;
    h[0] ^= 0x01010000 ^ 32;
    h[6] ^= u64::from_le_bytes(*b"ZcashCom");
    h[7] ^= u64::from_le_bytes(*b"putehSig");
    let mut v = [0u64; 16];
    v[..8].copy_from_slice(&h);
    v[8..].copy_from_slice(&IV);
    v[12] ^= 128;
    v[14] = !v[14];
    for i in 0..12 {
        let word = |j: usize| m[SIGMA[i][j] as usize];
        g(&mut v, 0, 4, 8, 12, word(0), word(1));
        g(&mut v, 1, 5, 9, 13, word(2), word(3));
        g(&mut v, 2, 6, 10, 14, word(4), word(5));
        g(&mut v, 3, 7, 11, 15, word(6), word(7));
        g(&mut v, 0, 5, 10, 15, word(8), word(9));
        g(&mut v, 1, 6, 11, 12, word(10), word(11));
        g(&mut v, 2, 7, 8, 13, word(12), word(13));
        g(&mut v, 3, 4, 9, 14, word(14), word(15));
    }
    let mut d = [0u8; 32];
    for (i, o) in d.chunks_exact_mut(8).enumerate() {
        o.copy_from_slice(&(h[i] ^ v[i] ^ v[i + 8]).to_le_bytes());
    }
    d
}

// ---- The ledger

const MAX_MONEY: u64 = 2_100_000_000_000_000;
const MAX_SPENT: usize = 65_536;
const MAX_ANCHORS: usize = 4_096;

#[derive(Clone, PartialEq)]
pub struct Ledger {
    pub spent: u64,
    pub anchors: u64,
    pub pool: u64,
    pub leaves: u32,
    pub nodes: [Row; 30],
}

fn room(buffer: &[u8], most: usize) -> usize {
    (buffer.len() / 32).min(most)
}

fn rows(buffer: &[u8], used: u64) -> &[Row] {
    &buffer.as_chunks::<32>().0[..used as usize]
}

// Plain: by the language's own order of arrays.
#[cfg(rows = "plain")]
fn all_rise(rows: &[Row]) -> bool {
    rows.is_sorted_by(|a, b| a < b)
}

// Tuned: by first words, eight bytes as a number, the first byte the highest. Of rows of hashes they nearly always
// decide. Each is loaded once, and kept to be compared with the next one; eight rows a turn, which came out quicker
// than four. The rows of a turn in which first words are equal or fall are compared in full, and so are the last few.
#[cfg(rows = "words")]
fn all_rise(rows: &[Row]) -> bool {
    const TURN: usize = 8;
    let word = |row: &Row| u64::from_be_bytes(row.as_chunks().0[0]);
    let Some((mut last, rest)) = rows.split_first() else {
        return true;
    };
    let (turns, few) = rest.as_chunks::<TURN>();
    let mut before = word(last);
    for turn in turns {
        let rises = turn.iter().all(|row| std::mem::replace(&mut before, word(row)) < before);
        if !rises && !(*last < turn[0] && turn.is_sorted_by(|a, b| a < b)) {
            return false;
        }
        last = &turn[TURN - 1];
        before = word(last);
    }
    few.first().is_none_or(|row| last < row) && few.is_sorted_by(|a, b| a < b)
}

impl Ledger {
    fn is_damaged(&self, table: &[u8], roll: &[u8]) -> bool {
        self.spent % 2 != 0
            || self.spent > room(table, MAX_SPENT) as u64
            || u64::from(self.leaves) != self.spent
            || self.anchors == 0
            || self.anchors > room(roll, MAX_ANCHORS) as u64
            || self.pool > MAX_MONEY
            || !all_rise(rows(table, self.spent))
    }

    // Puts a row that is not there where it goes.
    fn enter(&mut self, table: &mut [u8], row: &Row) {
        let used = 32 * self.spent as usize;
        let at = match rows(table, self.spent).binary_search(row) {
            Ok(at) | Err(at) => 32 * at,
        };
        table.copy_within(at..used, at + 32);
        table[at..at + 32].copy_from_slice(row);
        self.spent += 1;
    }

    fn append(&mut self, leaf: &Row) {
        let mut node = *leaf;
        let mut level = 0;
        while self.leaves >> level & 1 == 1 {
            node = parent(&self.nodes[level], &node);
            level += 1;
        }
        self.nodes[level] = node;
        self.leaves += 1;
    }
}

// ---- The case

const FIRST_EDITION: usize = 4_210;
const SECOND_EDITION: usize = 4_106;

// What stands before the proof, and what stands behind the ciphertexts: at the file's end in either edition.
#[derive(Clone, Copy)]
struct Case<'a> {
    front: &'a [u8; 304],
    back: &'a [u8; 2_408],
}

// From the start of the back.
const KEY: usize = 0;
const OLD: [usize; 2] = [32, 1_100];
const NEW: [usize; 2] = [2_168, 2_272];
const PHI: usize = 2_376;

impl<'a> Case<'a> {
    fn read(file: &'a [u8]) -> Option<Case<'a>> {
        match file.len() {
            FIRST_EDITION | SECOND_EDITION => Some(Case { front: file.first_chunk()?, back: file.last_chunk()? }),
            _ => None,
        }
    }

    // A field before the proof, by its place in the file.
    fn front<const N: usize>(self, at: usize) -> &'a [u8; N] {
        self.front[at..at + N].try_into().unwrap()
    }

    // A field behind the ciphertexts, by its place in the back.
    fn back<const N: usize>(self, at: usize) -> &'a [u8; N] {
        self.back[at..at + N].try_into().unwrap()
    }

    fn public_value(self, at: usize) -> u64 {
        u64::from_le_bytes(*self.front(at))
    }

    fn value(self, at: usize) -> u64 {
        u64::from_le_bytes(*self.back(at))
    }

    fn position(self, old: usize) -> u32 {
        u32::from_le_bytes(*self.back(old + 136))
    }
}

const fn refused(number: u32, place: usize) -> Result<(), u32> {
    Err(number | (place as u32) << 8)
}

// Refusal 8 tells the row where the nullifier stands, too.
const fn spent(place: usize, row: usize) -> Result<(), u32> {
    Err(8 | (place as u32) << 8 | (row as u32) << 16)
}

// For the first or the second of a pair that a test finds wrong.
fn none_of(wrong: impl Fn(usize) -> bool, number: u32) -> Result<(), u32> {
    match (0..2).find(|i| wrong(*i)) {
        Some(i) => refused(number, i + 1),
        None => Ok(()),
    }
}

// 3 to 8
fn ask(case: Case, ledger: &Ledger, table: &[u8], roll: &[u8]) -> Result<(), u32> {
    let public = [case.public_value(0), case.public_value(8)];
    let nullifiers: [&Row; 2] = [case.front(48), case.front(80)];
    if room(table, MAX_SPENT) as u64 - ledger.spent < 2 {
        return refused(3, 0);
    }
    if public[0] != 0 && public[1] != 0 {
        return refused(4, 0);
    }
    none_of(|i| public[i] > MAX_MONEY, 5)?;
    if !rows(roll, ledger.anchors).contains(case.front(16)) {
        return refused(6, 0);
    }
    if nullifiers[0] == nullifiers[1] {
        return refused(7, 0);
    }
    for (i, nullifier) in nullifiers.into_iter().enumerate() {
        if let Ok(row) = rows(table, ledger.spent).binary_search(nullifier) {
            return spent(i + 1, row);
        }
    }
    Ok(())
}

fn strays(case: Case, old: usize) -> bool {
    if case.value(old + 64) == 0 {
        return false;
    }
    let mut node = commitment(case.back(old + 32), case.back(old + 64), case.back(old + 72), case.back(old + 104));
    for level in 0..29 {
        let sibling = case.back(old + 140 + 32 * level);
        node = if case.position(old) >> level & 1 == 1 { parent(sibling, &node) } else { parent(&node, sibling) };
    }
    node != *case.front(16)
}

// 9 to 16
fn check_witness(case: Case) -> Result<(), u32> {
    let sum = |public: usize, values: [usize; 2]| {
        u128::from(case.public_value(public)) + values.iter().map(|at| u128::from(case.value(*at))).sum::<u128>()
    };
    let key = |i: usize| case.back(OLD[i]);
    let phi = case.back(PHI);
    none_of(|i| key(i)[0] & 0xf0 != 0 || case.position(OLD[i]) >= 1 << 29, 9)?;
    if phi[0] & 0xf0 != 0 {
        return refused(9, 3);
    }
    none_of(|i| strays(case, OLD[i]), 10)?;
    let paid = sum(0, OLD.map(|at| at + 64));
    if paid != sum(8, NEW.map(|at| at + 32)) || paid > u128::from(u64::MAX) {
        return refused(11, 0);
    }
    none_of(|i| *case.front(48 + 32 * i) != tagged(0b1110, key(i), case.back(OLD[i] + 72)), 12)?;
    none_of(|i| *case.back(OLD[i] + 32) != tagged(0b1100, key(i), &[0; 32]), 13)?;
    let h = h_sig(case);
    none_of(|i| *case.front(240 + 32 * i) != tagged([0b0000, 0b0100][i], key(i), &h), 14)?;
    none_of(|i| *case.back(NEW[i] + 40) != tagged([0b0010, 0b0110][i], phi, &h), 15)?;
    none_of(|i| *case.front(112 + 32 * i) != new_commitment(case, NEW[i]), 16)
}

fn new_commitment(case: Case, new: usize) -> Row {
    commitment(case.back(new), case.back(new + 32), case.back(new + 40), case.back(new + 72))
}

// What acceptance leaves in the pool, if that is in its bounds. Neither the pool nor a public value is above all
// money, so that nothing wraps.
fn pool_after(case: Case, ledger: &Ledger) -> Option<u64> {
    let left = (ledger.pool + case.public_value(0)).checked_sub(case.public_value(8));
    left.filter(|pool| *pool <= MAX_MONEY)
}

fn judged(file: &[u8], ledger: &mut Ledger, table: &mut [u8], roll: &[u8]) -> Result<(), u32> {
    let Some(case) = Case::read(file) else {
        return refused(1, 0);
    };
    if ledger.is_damaged(table, roll) {
        return refused(2, 0);
    }
    ask(case, ledger, table, roll)?;
    check_witness(case)?;
    let Some(pool) = pool_after(case, ledger) else {
        return refused(17, 0);
    };
    ledger.enter(table, case.front(48));
    ledger.enter(table, case.front(80));
    ledger.append(case.front(112));
    ledger.append(case.front(144));
    ledger.pool = pool;
    Ok(())
}

// The answer as the library gives it: the number, 256 times the place and 65,536 times the row.
#[inline(never)]
pub fn judge(file: &[u8], ledger: &mut Ledger, table: &mut [u8], roll: &[u8]) -> u32 {
    judged(file, ledger, table, roll).err().unwrap_or(0)
}
