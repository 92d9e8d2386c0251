// Prepares the cases of the bench, as a tape: a ledger of FILL nullifiers and, on it, COUNT case files. Half of
// them are accepted, each with two old notes of value. The others are refused, as many of each kind of answer
// as of any other, mixed with the accepted ones. The refusals of the ledger itself, 2 and 3, come last, each
// on a ledger of its own. Each case comes twice, once in each edition, so that the editions can be compared. Of
// each kind there are two at least, even if then fewer than half are accepted. The same numbers give the same tape.
//   cases FILL COUNT SEED >TAPE
use std::io::Write;

use second::answer::Answer;
use second::bytes::Bytes32;
use second::case::{Amount, Case, Edition};
use second::judge::{first_refusal, RULES};
use second::ledger::{Ledger, MAX_ANCHORS, MAX_POOL, MAX_SPENT, ROW_BYTES};
use second::maker::bends::{Bench, Bend, BENDS};
use second::maker::purse::Purse;
use second::random::Random;
use second::tape::{entry, plant_body};
use second::tree::{Record, Tree};
use second::wallet::proof_of;

const ROLL: usize = 16;
// In the pool: room for what a case puts in, and enough for what it takes out.
const POOL: u64 = MAX_POOL / 2;
const VALUES: [u64; 8] = [1, 10_000, 7, 1 << 40, 2_100_000_000_000_000, 12_345, u64::MAX, 3];

struct Scene {
    random: Random,
    purse: Purse,
    ledger: Ledger,
}

impl Scene {
    fn new(fill: usize, seed: u64) -> Scene {
        let mut random = Random::new(seed);
        let mut purse = Purse::from_elsewhere(&mut random, &VALUES.map(Amount));
        purse.pool = POOL;
        let mut rows: Vec<Bytes32> = (0..fill.min(2)).filter_map(|_| purse.take_spent(&mut random)).collect();
        while rows.len() < fill {
            rows.push(random.bytes());
        }
        rows.sort();
        let mut roll: Vec<Bytes32> = purse.anchors().iter().map(|anchor| anchor.root).collect();
        while roll.len() < ROLL {
            roll.push(random.bytes());
        }
        random.shuffle(&mut roll);
        let ledger = ledger_of(&mut random, &rows, &roll);
        Scene { random, purse, ledger }
    }

    // A case that is accepted, and spends two notes of value.
    fn good(&mut self) -> Case {
        loop {
            let case = self.purse.good_case(&mut self.random);
            if case.old.iter().all(|note| note.value != Amount::ZERO) {
                return case;
            }
        }
    }

    // A case with an answer of this number and place.
    fn case_for(&mut self, answer: Answer) -> Case {
        let bends: Vec<&Bend> = BENDS.iter().filter(|bend| bend.answer == answer).collect();
        loop {
            let good = self.good();
            if answer.is_pass() {
                return good;
            }
            let bend = *self.random.pick(&bends);
            let mut bench = Bench { random: &mut self.random, purse: &self.purse };
            if let Some(case) = (bend.apply)(&mut bench, good) {
                if first_refusal(&self.ledger, &case).map(Answer::without_row) == Some(answer) {
                    return case;
                }
            }
        }
    }

    // So many files with an answer of this number and place: each case in the first edition, and then in the second.
    fn files_for(&mut self, answer: Answer, count: usize) -> Vec<Vec<u8>> {
        let mut files = Vec::new();
        while files.len() < count {
            let case = self.case_for(answer);
            for edition in Edition::ALL {
                let proof = proof_of(&mut self.random, edition);
                files.push(case.clone().with_proof(proof).to_bytes());
            }
        }
        files.truncate(count);
        files
    }

    // So many files that are a byte longer or shorter than those of an edition.
    fn files_of_wrong_length(&mut self, count: usize) -> Vec<Vec<u8>> {
        let mut files = self.files_for(Answer::PASSED, count);
        for (index, file) in files.iter_mut().enumerate() {
            let is_longer = index / 2 % 2 == 1;
            file.resize(file.len() - 1 + 2 * usize::from(is_longer), 0);
        }
        files
    }
}

// A sound ledger of these rows, with all the room there may be.
fn ledger_of(random: &mut Random, rows: &[Bytes32], roll: &[Bytes32]) -> Ledger {
    let record = Record { count: rows.len() as u32, nodes: std::array::from_fn(|_| random.bytes()) };
    let mut ledger = Ledger {
        table: rows.concat(),
        roll: roll.concat(),
        spent: rows.len() as u64,
        anchors: roll.len() as u64,
        pool: POOL,
        tree: Tree::planted(record),
    };
    ledger.table.resize(MAX_SPENT * ROW_BYTES, 0);
    ledger.roll.resize(MAX_ANCHORS * ROW_BYTES, 0);
    ledger
}

// The answers of cases on a sound ledger with room: all but 1, 2 and 3, and no 8 where nothing is spent.
fn kinds(fill: usize) -> Vec<Answer> {
    let answers = RULES.iter().map(|rule| rule.answer);
    answers.filter(|answer| answer.number > 3 && (fill > 0 || answer.number != 8)).collect()
}

fn put(out: &mut impl Write, kind: u8, body: &[u8]) {
    out.write_all(&entry(kind, body)).expect("the tape is written");
}

fn main() {
    let numbers: Vec<u64> = std::env::args().skip(1).map(|word| word.parse().expect("a number")).collect();
    let [fill, count, seed] = numbers[..] else { panic!("cases FILL COUNT SEED") };
    let (fill, count) = (fill as usize, count as usize);
    let mut scene = Scene::new(fill, seed);
    let kinds = kinds(fill);
    let share = 2 * (count / 4 / (kinds.len() + 3)).max(1);
    let mut files: Vec<Vec<u8>> = kinds.iter().flat_map(|kind| scene.files_for(*kind, share)).collect();
    files.extend(scene.files_of_wrong_length(share));
    let accepted = count.saturating_sub(files.len() + 2 * share);
    files.extend(scene.files_for(Answer::PASSED, accepted));
    scene.random.shuffle(&mut files);

    let mut out = std::io::BufWriter::new(std::io::stdout().lock());
    put(&mut out, b'P', &plant_body(&scene.ledger));
    files.iter().for_each(|file| put(&mut out, b'C', file));
    let mut damaged = scene.ledger.clone();
    damaged.pool = MAX_POOL + 1;
    let mut full = scene.ledger.clone();
    full.table.truncate(fill * ROW_BYTES);
    for ledger in [damaged, full] {
        put(&mut out, b'P', &plant_body(&ledger));
        scene.files_for(Answer::PASSED, share).iter().for_each(|file| put(&mut out, b'C', file));
    }
}
