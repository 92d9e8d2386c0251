//! A run of the C functions, which no program of the repository calls: every answer, and a hash of all memory
//! after it. What it must say comes from the second judge.
use std::collections::hash_map::DefaultHasher;
use std::hash::{Hash, Hasher};

use second::bag::{read_bag, write_bag};
use second::tape::Player;

use port::{choose, variant};

use crate::calls::{Calls, JUDGEMENT_BYTES, LEDGER_BYTES, SECOND};

/// What is played: the entries of a tape, and bags.
pub struct Script {
    pub tape: Vec<(u8, Vec<u8>)>,
    pub bags: Vec<Vec<u8>>,
}

impl Script {
    /// A tape's entries and a tray's bags, each up to the end or to where it breaks.
    pub fn new(tape: &[u8], tray: &[u8]) -> Script {
        let (mut script, mut rest) = (Script { tape: Vec::new(), bags: Vec::new() }, tape);
        let mut player = Player::new();
        while let Some((kind, (body, next))) =
            rest.split_first().and_then(|(kind, after)| Some((kind, counted(after)?)))
        {
            if player.play(*kind, body).is_none() {
                break;
            }
            script.tape.push((*kind, body.to_vec()));
            rest = next;
        }
        rest = tray;
        while let Some((bag, next)) = counted(rest) {
            script.bags.push(bag.to_vec());
            rest = next;
        }
        script
    }

    /// A case that a fresh ledger accepts.
    fn good_case(&self) -> &[u8] {
        let fresh = Memory::opened(&SECOND, 64, 32);
        let cases = self.bags.iter().filter_map(|bag| read_bag(bag)).flat_map(|bag| bag.cases);
        let is_good =
            |case: &&[u8]| (SECOND.judge)(case, &mut fresh.ledger.clone(), &mut fresh.table.clone(), &fresh.roll) == 0;
        cases.into_iter().find(is_good).expect("a bag with a good case")
    }
}

/// The bytes behind a length of four bytes, and what follows them.
fn counted(bytes: &[u8]) -> Option<(&[u8], &[u8])> {
    let (length, after) = bytes.split_first_chunk()?;
    after.split_at_checked(u32::from_le_bytes(*length) as usize)
}

fn number_at(body: &[u8], at: usize) -> usize {
    u32::from_le_bytes(body[at..at + 4].try_into().unwrap()) as usize
}

fn float_at(body: &[u8], at: usize) -> f64 {
    f64::from_le_bytes(body[at..at + 8].try_into().unwrap())
}

/// A ledger's three buffers.
#[derive(Clone)]
struct Memory {
    ledger: Vec<u8>,
    table: Vec<u8>,
    roll: Vec<u8>,
}

impl Memory {
    /// Fresh, in memory that was not zero.
    fn opened(calls: &Calls, table: usize, roll: usize) -> Memory {
        let mut m = Memory { ledger: vec![7; LEDGER_BYTES], table: vec![7; table], roll: vec![7; roll] };
        (calls.open)(&mut m.ledger, &mut m.roll);
        m
    }

    /// With these rows in the table, and so many anchors, all of them the empty root, in so many rows each.
    fn planted(rows: &[[u8; 32]], table: usize, anchors: usize, roll: usize) -> Memory {
        let empty_root = Memory::opened(&SECOND, 0, 32).roll;
        let counts = [rows.len() as u64, anchors as u64, 0, rows.len() as u64].map(u64::to_le_bytes);
        let mut m = Memory { ledger: counts.concat(), table: rows.concat(), roll: empty_root.repeat(roll) };
        m.ledger.resize(LEDGER_BYTES, 0);
        m.table.resize(table * 32, 7);
        m
    }
}

/// So many rows that rise.
fn rising(count: u32) -> Vec<[u8; 32]> {
    (0..count).map(|i| i.to_be_bytes().repeat(8).try_into().unwrap()).collect()
}

/// Writes rows by a tape's rule: the eight bytes of a number, highest first, and 24 that are the same in all.
fn fill(buffer: &mut [u8], body: &[u8]) {
    let [first, count] = [0, 4].map(|at| number_at(body, at));
    let [mut number, step] = [8, 16].map(|at| u64::from_le_bytes(body[at..at + 8].try_into().unwrap()));
    for row in buffer.chunks_exact_mut(32).skip(first).take(count) {
        row[..8].copy_from_slice(&number.to_be_bytes());
        row[8..].copy_from_slice(&body[24..]);
        number = number.wrapping_add(step);
    }
}

/// The run: whom it calls, and who hears each line as it is said.
pub struct Run<'a> {
    pub calls: &'a Calls,
    pub say: &'a mut dyn FnMut(String),
}

impl Run<'_> {
    pub fn play(&mut self, script: &Script) {
        self.tape(script);
        for bag in &script.bags {
            let mut fresh = Memory::opened(self.calls, 65_536, 1_024);
            self.bag(bag, [1.0, 0.0], &mut fresh);
        }
        self.layouts();
        let case = script.good_case();
        self.lengths(case);
        self.steps(case);
        self.drafts(case);
        self.limits(case);
        self.rows(case);
        self.seals();
        self.books();
    }

    /// A call's answer, as number, place and row, and what it left of the buffers. The next call has its turns anew.
    fn tell(&mut self, what: &str, answer: u32, buffers: &[&[u8]]) {
        choose(variant());
        let mut hasher = DefaultHasher::new();
        buffers.hash(&mut hasher);
        let (number, place, row) = (answer % 256, answer / 256 % 256, answer / 65_536);
        (self.say)(format!("{what} {number} {place} {row} {:016x}", hasher.finish()));
    }

    fn judge(&mut self, case: &[u8], m: &mut Memory) {
        let answer = (self.calls.judge)(case, &mut m.ledger, &mut m.table, &m.roll);
        self.tell("judge", answer, &[&m.ledger, &m.table, &m.roll]);
    }

    fn open(&mut self, m: &mut Memory) {
        let answer = (self.calls.open)(&mut m.ledger, &mut m.roll);
        self.tell("open", answer, &[&m.ledger, &m.roll]);
    }

    fn close(&mut self, m: &mut Memory) {
        let answer = (self.calls.close)(&mut m.ledger, &m.table, &mut m.roll);
        self.tell("close", answer, &[&m.ledger, &m.table, &m.roll]);
    }

    /// What a buffer of this length holds after it, where the draft is not refused.
    fn write_case(&mut self, draft: &[u8], length: usize) -> Option<Vec<u8>> {
        let mut buffer = vec![7; length];
        let answer = (self.calls.write_case)(draft, &mut buffer);
        self.tell("write", answer, &[&buffer]);
        (answer == 0).then_some(buffer)
    }

    fn root(&mut self, ledger: &[u8], length: usize) {
        let mut root = vec![7; length];
        let answer = (self.calls.root)(ledger, &mut root);
        self.tell("root", answer, &[&root]);
    }

    /// The lent pull is also a NaN that no sum gives, to see that a refusal leaves its very bits.
    fn seal(&mut self, body: &[u8], [gain, offset]: [f64; 2]) {
        for lent in [0x3fd0_0000_0000_0000_u64, 0x7ff8_0000_0000_0abc] {
            for length in [8, 7] {
                let mut pull = lent.to_le_bytes();
                let answer = (self.calls.seal)(body, gain, offset, &mut pull[..length]);
                self.tell("seal", answer, &[&pull]);
            }
        }
    }

    fn hash(&mut self, bytes: &[u8], length: usize) {
        let mut digest = vec![7; length];
        let answer = (self.calls.hash)(bytes, &mut digest);
        self.tell("hash", answer, &[&digest]);
    }

    fn bag(&mut self, bag: &[u8], [gain, offset]: [f64; 2], m: &mut Memory) {
        for length in [31, 33, 32] {
            let mut report = vec![7; length];
            let answer = (self.calls.bag)(bag, gain, offset, &mut m.ledger, &mut m.table, &m.roll, &mut report);
            self.tell("bag", answer, &[&m.ledger, &m.table, &m.roll, &report]);
        }
    }

    /// The entries one after the other, and before each case two bags of it and of the cases that follow.
    fn tape(&mut self, script: &Script) {
        let mut seals = script.tape.iter().filter(|(kind, _)| *kind == b'S').map(|(_, body)| body).cycle();
        let mut m = Memory::opened(self.calls, 0, 0);
        for (index, (kind, body)) in script.tape.iter().enumerate() {
            match kind {
                b'O' => m = Memory::opened(self.calls, number_at(body, 0), number_at(body, 4)),
                b'P' => {
                    let (table, roll) = body[996..].split_at(number_at(body, 988));
                    m = Memory { ledger: body[..LEDGER_BYTES].to_vec(), table: table.to_vec(), roll: roll.to_vec() };
                }
                b'K' => {
                    let [table, roll] = [988, 992].map(|at| vec![0; number_at(body, at)]);
                    m = Memory { ledger: body[..LEDGER_BYTES].to_vec(), table, roll };
                }
                b'T' => fill(&mut m.table, body),
                b'A' => fill(&mut m.roll, body),
                b'C' => {
                    let later = script.tape[index..].iter().take(index % 8);
                    let cases: Vec<&[u8]> =
                        later.take_while(|entry| entry.0 == b'C').map(|entry| &entry.1[..]).collect();
                    self.bag(&write_bag(&[0; 25], &cases), [1.0, 0.0], &mut m.clone());
                    let seal = seals.next().expect("a tape with seals");
                    self.bag(&write_bag(&seal[16..], &cases), [0, 8].map(|at| float_at(seal, at)), &mut m.clone());
                    self.judge(body, &mut m);
                }
                b'D' => {
                    if let Some(case) = self.write_case(&body[4..], number_at(body, 0)) {
                        self.judge(&case, &mut m);
                    }
                }
                b'F' => self.open(&mut m),
                b'B' => self.close(&mut m),
                b'L' => self.root(&m.ledger, 32),
                b'S' => self.seal(&body[16..], [0, 8].map(|at| float_at(body, at))),
                _ => (),
            }
            self.tell("memory", 0, &[&m.ledger, &m.table, &m.roll]);
        }
    }

    /// A bag of eight rows with some bits of one byte of its contents turned over.
    fn layouts(&mut self) {
        let sound = write_bag(&[0; 25], &[&b"no case"[..]; 7]);
        for (at, bits) in (0..74).flat_map(|at| [1, 3, 128].map(|bits| (at, bits))) {
            let mut bag = sound.clone();
            bag[at] ^= bits;
            self.bag(&bag, [1.0, 0.0], &mut Memory::opened(self.calls, 64, 32));
        }
    }

    /// Ledgers and roots of every near length, and the case cut short everywhere.
    fn lengths(&mut self, case: &[u8]) {
        let sound = Memory::opened(self.calls, 64, 64);
        for length in [0, 987, 988, 989] {
            let mut m = sound.clone();
            m.ledger.resize(length, 7);
            self.judge(case, &mut m.clone());
            self.close(&mut m.clone());
            self.bag(&write_bag(&[0; 25], &[case]), [1.0, 0.0], &mut m.clone());
            for root in [0, 31, 32, 33] {
                self.root(&m.ledger, root);
            }
            self.open(&mut m);
        }
        for length in 0..case.len() {
            self.judge(&case[..length], &mut sound.clone());
        }
    }

    /// A case in steps: on a fresh ledger, and where its nullifier stands in the second row; cut short; on records and
    /// ledgers of near lengths.
    fn steps(&mut self, case: &[u8]) {
        let fresh = Memory::opened(self.calls, 64, 64);
        let spent = Memory::planted(&[[0; 32], case[48..80].try_into().unwrap()], 6, 1, 1);
        for (case, record, ledger, memory) in [
            (case, JUDGEMENT_BYTES, LEDGER_BYTES, &fresh),
            (case, JUDGEMENT_BYTES, LEDGER_BYTES, &spent),
            (&case[1..], JUDGEMENT_BYTES, LEDGER_BYTES, &fresh),
            (case, JUDGEMENT_BYTES - 1, LEDGER_BYTES, &fresh),
            (case, JUDGEMENT_BYTES + 1, LEDGER_BYTES, &fresh),
            (case, JUDGEMENT_BYTES, LEDGER_BYTES - 1, &fresh),
            (case, JUDGEMENT_BYTES, LEDGER_BYTES + 1, &fresh),
            (case, 0, 0, &fresh),
        ] {
            let mut m = memory.clone();
            m.ledger.resize(ledger, 7);
            let mut judgement = vec![7; record];
            for answer in (self.calls.steps)(case, &mut judgement, &mut m.ledger, &mut m.table, &m.roll) {
                self.tell("step", answer, &[&m.ledger, &m.table, &m.roll]);
            }
        }
    }

    /// Drafts of each edition's length and of lengths beside it, in buffers of all these lengths.
    fn drafts(&mut self, case: &[u8]) {
        let lengths = [0, 4_105, 4_106, 4_107, 4_209, 4_210, 4_211];
        for (long, lent) in lengths.iter().flat_map(|long| lengths.map(|lent| (*long, lent))) {
            let mut draft = case.to_vec();
            draft.resize(long, 7);
            self.write_case(&draft, lent);
        }
    }

    /// Tables and rolls of fewer and of more rows than a ledger may use, and counts at both sides of the limits; and
    /// counts that were at the limits once.
    fn limits(&mut self, case: &[u8]) {
        let small = [2047, 2048, 2050, 4096].iter().flat_map(|t| [2046, 2048, 2050].map(|u| (*t, u)));
        let large = [65_535, 65_536, 65_538].iter().flat_map(|t| [65_534, 65_536, 65_538].map(|u| (*t, u)));
        for (table, used) in small.chain(large) {
            let mut m = Memory::planted(&rising(used), table, 1, 2);
            self.close(&mut m.clone());
            self.judge(case, &mut m);
        }
        let small = [1024, 2048].iter().flat_map(|r| [1023, 1024, 1025].map(|a| (*r, a)));
        let large = [4095, 4096, 4097, 4100].iter().flat_map(|r| [4094, 4095, 4096, 4097].map(|a| (*r, a)));
        for (roll, anchors) in small.chain(large) {
            let mut m = Memory::planted(&[], 2, anchors, roll);
            self.judge(case, &mut m.clone());
            self.close(&mut m);
        }
    }

    /// Rows that differ in one byte, from each other and from the case's nullifier; rows of which two exchanged
    /// neighbours fall.
    fn rows(&mut self, case: &[u8]) {
        for at in 0..32 {
            let low: [u8; 32] = case[48..80].try_into().unwrap();
            let mut high = low;
            high[at] = low[at].wrapping_add(1);
            for rows in [vec![high], vec![low, high], vec![high, low]] {
                let pair: Vec<[u8; 32]> = rows.into_iter().chain([[0xff; 32]]).collect();
                self.judge(case, &mut Memory::planted(&pair[pair.len() % 2..], 6, 1, 1));
                self.judge(case, &mut Memory::planted(&pair[..2], 6, 1, 1));
            }
        }
        for at in 0..5 {
            let mut rows = rising(6);
            rows.swap(at, at + 1);
            self.judge(case, &mut Memory::planted(&rows, 8, 1, 1));
        }
    }

    /// Seals of each kind with one byte set, and of near lengths.
    fn seals(&mut self) {
        for (kind, at) in (0..4).flat_map(|kind| (1..27).map(move |at| (kind, at))) {
            let mut body = vec![0; at.max(25)];
            body[0] = kind;
            body[at - 1] |= 1;
            self.seal(&body, [1.0, 0.0]);
            self.seal(&body[..at.min(25)], [1.0, 0.0]);
        }
    }

    /// Tallies at the ends of their counts, and day lists with rows before, at and past the end.
    fn books(&mut self) {
        let counts = [0, 1, 258, u32::MAX - 1, u32::MAX];
        for (seen, passed, refused) in
            counts.iter().flat_map(|a| counts.iter().flat_map(move |b| counts.map(|c| (*a, *b, c))))
        {
            for answer in [0, 1, 256, 264] {
                let mut tally = [seen, passed, refused].map(u32::to_le_bytes).concat();
                let answer = (self.calls.tally)(&mut tally, answer);
                self.tell("tally", answer, &[&tally]);
            }
        }
        for length in [0, 31, 32, 33] {
            for bytes in [0, 55, 56, 64, 200] {
                self.hash(&vec![9; bytes], length);
            }
        }
        for length in [0, 5, 6, 7, 11, 12, 13, 18, 25] {
            let mut tally = vec![7; length];
            let answer = (self.calls.tally)(&mut tally, 0);
            self.tell("tally", answer, &[&tally]);
            for row in [0, 1, 2, 3, 4, 1 << 32, usize::MAX / 6, usize::MAX / 6 + 1, usize::MAX] {
                let list = vec![7; length];
                for answer in [0, 0x0208, 0x0100, 0x0001, 0xff00, 0xffff, 0x1_0000, 0x1_0208, 0x1_0109, 0x1_0107, 0xffff_0108] {
                    let mut list = list.clone();
                    let answer = (self.calls.day)(&mut list, row, 0x0403_0201, answer);
                    self.tell("day", answer, &[&list]);
                }
            }
        }
    }
}
