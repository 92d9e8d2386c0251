//! Cases of both editions on one ledger: what is answered, and what is left,
//! is the same in either.

mod common;

use std::fs;
use std::path::{Path, PathBuf};

use common::{in_edition, other};
use second::case::{Amount, Case, OldNote, Position};
use second::hashes::address;
use second::random::Random;
use second::tree::{path_of_leaf, root_of_leaves};
use second::wallet::{idle_note, write_case, Note, Plan};
use snaldrek::{Answer, Calibration, Edition, Ledger, Pair, Refusal, ROW_BYTES};

const EDITIONS: [Edition; 2] = [Edition::First, Edition::Second];
const NULLIFIERS: usize = 48;

fn fresh() -> Ledger {
    Ledger::open(8, 4).expect("rows for anchors")
}

/// A case that takes nothing out: what it puts in goes to this address, under
/// the anchor of these leaves.
fn case_of(
    random: &mut Random,
    put: u64,
    to: [u8; 32],
    old: [OldNote; 2],
    leaves: &[[u8; 32]],
) -> Case {
    let value = put + old.iter().map(|note| note.value.0).sum::<u64>();
    let plan = Plan {
        vpub_old: Amount(put),
        vpub_new: Amount::ZERO,
        anchor: root_of_leaves(leaves),
        old,
        new: [(to, Amount(value)), (to, Amount::ZERO)],
    };
    write_case(random, plan)
}

/// A case that passes on a fresh ledger.
fn mint(random: &mut Random, put: u64, to: [u8; 32]) -> Case {
    let old = [idle_note(random), idle_note(random)];
    case_of(random, put, to, old, &[])
}

/// A file of such a case, in this edition.
fn minted(random: &mut Random, edition: Edition) -> Vec<u8> {
    let case = mint(random, 10_000, [7; 32]);
    in_edition(random, &case.to_bytes(), edition)
}

#[test]
fn a_case_is_accepted_in_either_edition_and_leaves_the_same_bytes() {
    let mut random = Random::new(1);
    let first = minted(&mut random, Edition::First);
    let second = in_edition(&mut random, &first, Edition::Second);
    let (mut one, mut two) = (fresh(), fresh());
    assert_eq!(one.judge(&first), Ok(()));
    assert_eq!(two.judge(&second), Ok(()));
    assert!(one == two, "the ledgers differ");
    assert_eq!((one.spent(), one.leaves(), one.pool()), (2, 2, 10_000));
    assert_eq!([one.close(), two.close()], [Ok(()); 2]);
    assert!(one == two, "the ledgers differ after a block");
}

#[test]
fn a_case_is_accepted_once_whichever_editions_it_comes_in() {
    let mut random = Random::new(2);
    for (edition, again) in EDITIONS.into_iter().flat_map(|e| EDITIONS.map(|a| (e, a))) {
        let file = minted(&mut random, edition);
        let file_again = in_edition(&mut random, &file, again);
        let mut ledger = fresh();
        assert_eq!(ledger.judge(&file), Ok(()), "{edition:?}");
        let before = ledger.clone();
        let refusal = ledger.judge(&file_again).expect_err("it is spent");
        assert!(matches!(refusal, Refusal::AlreadySpent(Pair::First, _)));
        let row = refusal.row().map_or(0, |row| row.index());
        let (_, table, _) = ledger.parts();
        assert_eq!(
            table[row * ROW_BYTES..][..ROW_BYTES],
            file[NULLIFIERS..][..ROW_BYTES],
            "the row, {edition:?} then {again:?}"
        );
        assert!(ledger == before, "a refusal changes no byte");
    }
}

/// A note that a case of one edition made is spent by one of the other, once
/// its block is closed.
#[test]
fn a_note_of_one_edition_is_spent_in_the_other() {
    let mut random = Random::new(3);
    for edition in EDITIONS {
        let a_sk = random.key();
        let made = mint(&mut random, 500, address(&a_sk));
        let [new, _] = made.new.clone();
        let note = Note {
            a_sk,
            a_pk: new.a_pk,
            value: new.value,
            rho: new.rho,
            r: new.r,
        };
        let path = path_of_leaf(&made.commitments, Position(0));
        let old = [note.at(Position(0), path), idle_note(&mut random)];
        let spends = case_of(&mut random, 0, [9; 32], old, &made.commitments);
        let files = [(made, edition), (spends, other(edition))]
            .map(|(case, edition)| in_edition(&mut random, &case.to_bytes(), edition));
        let mut ledger = fresh();
        assert_eq!(ledger.judge(&files[0]), Ok(()));
        assert_eq!(ledger.judge(&files[1]), Err(Refusal::AnchorUnknown));
        assert_eq!(ledger.close(), Ok(()));
        assert_eq!(ledger.judge(&files[1]), Ok(()), "{edition:?} is spent");
        assert_eq!((ledger.spent(), ledger.pool()), (4, 500));
    }
}

/// Right but for the proof's length.
#[test]
fn a_proof_of_any_other_length_is_refused() {
    let mut random = Random::new(4);
    let file = minted(&mut random, Edition::First);
    let (front, back) = (&file[..304], &file[600..]);
    for length in 0..=400 {
        let file = [front, &vec![0x5a; length], back].concat();
        let (mut ledger, before) = (fresh(), fresh());
        let expected = match length {
            192 | 296 => Ok(()),
            _ => Err(Refusal::WrongLength),
        };
        assert_eq!(ledger.judge(&file), expected, "a proof of {length} bytes");
        assert!(expected.is_ok() || ledger == before);
    }
}

fn sample(name: &str) -> PathBuf {
    let samples = Path::new(env!("CARGO_MANIFEST_DIR")).join("../../samples");
    samples.join(name)
}

fn line(answer: Answer) -> String {
    let (number, place) = match answer {
        Ok(()) => (0, 0),
        Err(refusal) => (refusal.number(), refusal.place()),
    };
    format!("case {number} {place}")
}

/// As a bag, and its cases one by one.
#[test]
fn the_sample_of_both_editions_gets_its_lines() {
    let bag = fs::read(sample("both-editions.bag")).expect("the bag");
    let text = fs::read_to_string(sample("both-editions.txt")).expect("its lines");
    let expected: Vec<&str> = text.lines().filter(|l| l.starts_with("case")).collect();
    let mut ledger = fresh();
    let answers = ledger
        .scan_bag(&bag, Calibration::PLAIN)
        .expect("a sound bag");
    let lines: Vec<String> = answers.iter().map(|answer| line(*answer)).collect();
    assert_eq!(lines, expected);

    let cases = second::bag::read_bag(&bag).expect("a sound bag").cases;
    let editions: Vec<_> = cases.iter().map(|case| Edition::of_case(case)).collect();
    let [first, second] = EDITIONS.map(Some);
    assert_eq!(
        editions,
        [first, second, second, first, None, second, second]
    );
    let mut one_by_one = fresh();
    let lines: Vec<String> = cases
        .iter()
        .map(|case| line(one_by_one.judge(case)))
        .collect();
    assert_eq!(lines, expected);
    assert!(ledger == one_by_one, "the ledgers differ");
}
