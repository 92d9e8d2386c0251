//! Random shifts from the second judge's maker, with every kind of case, bend
//! and damage, played on both judges: after each entry the answers are alike,
//! and so is every byte of every buffer.

mod common;

use common::{assert_alike, assert_answer, entries, in_edition, other, same_ledger};
use second::judge::judge;
use second::ledger::Ledger as PlainLedger;
use second::maker::make_tape;
use second::random::Random;
use second::seal::{judge_seal as plain_judge_seal, Calibration as PlainCalibration, Seal};
use second::tape::{ask_desk, Player, LENT_BYTE};
use snaldrek::{calls, judge_seal, Answer, Calibration, Edition, Ledger, Refusal, LEDGER_BYTES};

const ENTRIES: usize = 700;

/// Both judges' ledgers, how many cases they have judged, how many of these in
/// a large table, how many of each edition were accepted, how many drafts were
/// refused and written, and the dice.
struct Pair {
    ours: Ledger,
    theirs: PlainLedger,
    cases: usize,
    large: usize,
    accepted: [usize; 2],
    drafts: [usize; 2],
    random: Random,
}

impl Pair {
    /// Plays an entry on both.
    fn play(&mut self, kind: u8, body: &[u8]) {
        match kind {
            b'O' => self.open(body),
            b'F' => self.open_as_lent(),
            b'C' => self.judge_twice(body),
            b'D' => {
                if let Some(file) = self.write(body) {
                    self.judge_twice(&file);
                }
            }
            b'B' => self.close(),
            b'S' => play_seal(body),
            b'L' => assert_eq!(self.ours.root(), self.theirs.tree.root(), "the root"),
            b'P' | b'K' | b'T' | b'A' => self.plant(kind, body),
            _ => (),
        }
    }

    /// The buffers are first filled with other bytes, to see which are written.
    fn open(&mut self, body: &[u8]) {
        let [table, roll] = [0, 4].map(|at| number_at(body, at));
        self.open_on(vec![7; table], vec![7; roll]);
    }

    fn open_as_lent(&mut self) {
        let PlainLedger { table, roll, .. } = self.theirs.clone();
        self.open_on(table, roll);
    }

    fn open_on(&mut self, table: Vec<u8>, mut roll: Vec<u8>) {
        let (theirs, expected) = PlainLedger::open(table.clone(), roll.clone());
        let mut bytes = [7; LEDGER_BYTES];
        assert_eq!(
            calls::open(&mut bytes, &mut roll),
            common::code(expected),
            "opening"
        );
        self.ours = Ledger::from_parts(bytes, table, roll);
        self.theirs = theirs;
    }

    /// Has both desks write the case of a draft: the same answer, and the same bytes
    /// in the whole buffer. Gives what they wrote.
    fn write(&mut self, body: &[u8]) -> Option<Vec<u8>> {
        let (expected, theirs) = ask_desk(body).expect("a sound entry");
        let mut ours = vec![LENT_BYTE; theirs.len()];
        let answer = Refusal::answer(calls::write_case(&body[4..], &mut ours));
        assert_answer(answer, expected, "a draft");
        assert!(ours == theirs, "the buffer after a draft");
        self.drafts[usize::from(answer.is_ok())] += 1;
        answer.is_ok().then_some(ours)
    }

    /// With one bit turned over, and as it is.
    fn judge_twice(&mut self, file: &[u8]) {
        self.judge_damaged(file);
        self.judge(file);
    }

    fn judge(&mut self, file: &[u8]) {
        let before = self.ours.clone();
        let expected = judge(&mut self.theirs, file);
        let answer = self.ours.judge(file);
        assert_answer(answer, expected, "a case");
        assert!(
            answer.is_ok() || self.ours == before,
            "a refusal changes no byte"
        );
        if let Some(edition) = Edition::of_case(file) {
            self.accepted[edition as usize] += usize::from(answer.is_ok());
            let file = in_edition(&mut self.random, file, other(edition));
            self.hold_other_edition(before, &file, answer);
        }
        self.cases += 1;
        self.large += usize::from(self.theirs.spent >= 65_534);
    }

    /// The same case in the other edition, on the ledger as it was before: the
    /// same answer, and the same bytes after it.
    fn hold_other_edition(&self, mut before: Ledger, file: &[u8], answer: Answer) {
        assert_eq!(before.judge(file), answer, "in the other edition");
        assert!(before == self.ours, "the ledger after the other edition");
    }

    /// The case with one bit turned over, on copies of the ledgers.
    fn judge_damaged(&mut self, file: &[u8]) {
        let mut file = file.to_vec();
        if file.is_empty() {
            return;
        }
        self.random.flip_bit(&mut file);
        let (mut ours, mut theirs) = (self.ours.clone(), self.theirs.clone());
        let expected = judge(&mut theirs, &file);
        assert_answer(ours.judge(&file), expected, "a damaged case");
        assert_alike(&ours, &theirs, "after a damaged case");
        self.cases += 1;
    }

    fn close(&mut self) {
        let before = self.ours.clone();
        let answer = self.ours.close();
        assert_answer(answer, self.theirs.close_block(), "closing a block");
        assert!(
            answer.is_ok() || self.ours == before,
            "a refusal changes no byte"
        );
    }

    /// A ledger, or rows of the one that stands, by the second judge's player.
    fn plant(&mut self, kind: u8, body: &[u8]) {
        let mut player = Player::new();
        player.ledger = self.theirs.clone();
        player.play(kind, body).expect("a sound plant");
        self.theirs = player.ledger;
        self.ours = same_ledger(&self.theirs);
    }
}

fn number_at(body: &[u8], at: usize) -> usize {
    u32::from_le_bytes(body[at..at + 4].try_into().expect("four bytes")) as usize
}

fn float_at(body: &[u8], at: usize) -> f64 {
    f64::from_le_bytes(body[at..at + 8].try_into().expect("eight bytes"))
}

/// The same pull to the bit, or the same refusal and the pull untouched.
fn play_seal(body: &[u8]) {
    let (gain, offset, seal) = (float_at(body, 0), float_at(body, 8), &body[16..]);
    let calibration = Calibration { gain, offset };
    let ours = judge_seal(seal, calibration);
    let theirs = match Seal::read(seal) {
        None => Err(second::answer::Answer::new(20, 0)),
        Some(seal) => plain_judge_seal(PlainCalibration { gain, offset }, seal),
    };
    match (ours, theirs) {
        (Ok(pull), Ok(expected)) => assert_eq!(pull.to_bits(), expected.to_bits(), "the pull"),
        (ours, theirs) => {
            let expected = theirs.expect_err("a refusal");
            assert_answer(ours.map(|_| ()), expected, "a seal");
            let mut pull = 0.25;
            calls::seal(seal, gain, offset, &mut pull);
            assert_eq!(pull, 0.25, "a refusal hands out no pull");
        }
    }
}

/// Whether an entry is none. Cases never are, drafts are where the desk is not
/// asked, and looks are where they have a body: none of these is played for this,
/// since a large ledger takes long.
fn is_broken(player: &mut Player, kind: u8, body: &[u8]) -> bool {
    match kind {
        b'C' => false,
        b'D' => ask_desk(body).is_none(),
        b'B' | b'L' | b'R' | b'M' => !body.is_empty(),
        _ => player.play(kind, body).is_none(),
    }
}

/// Plays the tape of a seed up to what is no entry, with which one in four
/// ends.
fn play_tape(seed: u64) -> Pair {
    let tape = make_tape(seed, ENTRIES);
    let mut player = Player::new();
    let theirs = PlainLedger::zeroed(Vec::new(), Vec::new());
    let mut pair = Pair {
        ours: same_ledger(&theirs),
        theirs,
        cases: 0,
        large: 0,
        accepted: [0; 2],
        drafts: [0; 2],
        random: Random::new(seed),
    };
    for (index, (kind, body)) in entries(&tape.bytes).into_iter().enumerate() {
        if is_broken(&mut player, kind, body) {
            break;
        }
        pair.play(kind, body);
        let when = format!("seed {seed}, after entry {index} of kind {}", kind as char);
        assert_alike(&pair.ours, &pair.theirs, &when);
    }
    pair
}

fn play_tapes(seeds: std::ops::Range<u64>) {
    let pairs: Vec<Pair> = seeds.map(play_tape).collect();
    let cases: usize = pairs.iter().map(|pair| pair.cases).sum();
    let large: usize = pairs.iter().map(|pair| pair.large).sum();
    let accepted = [0, 1].map(|edition| pairs.iter().map(|pair| pair.accepted[edition]).sum());
    let drafts = [0, 1].map(|passed| pairs.iter().map(|pair| pair.drafts[passed]).sum());
    println!("{cases} cases judged by both, {large} of them in a large table, {accepted:?} accepted of each edition");
    println!("{drafts:?} drafts refused and written by both");
    assert!(cases > 1_000, "only {cases} cases were judged");
    assert!(
        large > 50,
        "only {large} cases in a large table were judged"
    );
    assert!(
        accepted.iter().all(|count: &usize| *count > 100),
        "only {accepted:?} cases of each edition were accepted"
    );
    assert!(
        drafts.iter().all(|count: &usize| *count > 100),
        "only {drafts:?} drafts were refused and written"
    );
}

#[test]
fn tapes_are_alike() {
    play_tapes(2_000..2_003);
}

#[test]
fn more_tapes_are_alike_at_the_same_time() {
    play_tapes(3_000..3_003);
}

/// Bytes that say nothing at all, as a case, a seal and a ledger.
#[test]
fn noise_is_refused_alike() {
    let mut random = Random::new(17);
    for _ in 0..500 {
        let mut theirs =
            PlainLedger::zeroed(vec![0; random.below(200)], vec![0; random.below(200)]);
        random.fill(&mut theirs.table);
        random.fill(&mut theirs.roll);
        theirs.spent = random.u64() >> random.below(64);
        theirs.anchors = random.u64() >> random.below(64);
        theirs.pool = random.u64() >> random.below(64);
        let mut ours = same_ledger(&theirs);
        let lengths = [0, 4_105, 4_106, 4_107, 4_209, 4_210, 4_211];
        let mut file = vec![0; *random.pick(&lengths)];
        random.fill(&mut file);
        assert_answer(ours.judge(&file), judge(&mut theirs, &file), "noise");
        assert_answer(ours.close(), theirs.close_block(), "noise");
        assert_alike(&ours, &theirs, "after noise");
    }
}

/// A fresh ledger of the wrapper is the second judge's.
#[test]
fn opening_is_alike() {
    for (table, roll) in [(0, 1), (2, 1), (2_048, 1_024), (65_536, 4_096)] {
        let ours = Ledger::open(table, roll).expect("a roll with rows");
        let (theirs, _) = PlainLedger::open(vec![0; 32 * table], vec![0; 32 * roll]);
        assert_alike(&ours, &theirs, "opened");
        assert_eq!(ours.root(), theirs.tree.root());
    }
    assert_eq!(Ledger::open(8, 0), Err(Refusal::WrongLength));
}

#[test]
fn a_digest_is_the_second_judges() {
    for length in [0, 1, 55, 56, 63, 64, 65, 119, 120, 4_210, 99_308] {
        let (message, mut digest) = (vec![0x5a; length], [0; 32]);
        assert_eq!(calls::hash(&message, &mut digest), 0);
        assert_eq!(digest, second::sha256::sha256(&message));
    }
}
