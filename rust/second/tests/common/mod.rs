//! What several tests need: a ledger in use, with a purse that fits it.

// Each test file is built by itself and uses only some of this.
#![allow(dead_code)]

pub mod tapes;

use second::answer::Answer;
use second::bytes::Bytes32;
use second::case::{Amount, Case, OldNote, Position, MAX_MONEY};
use second::judge::judge;
use second::ledger::{Ledger, ROW_BYTES};
use second::maker::bends::{Bench, Bend};
use second::maker::purse::Purse;
use second::random::Random;
use second::tree::{path_of_leaf, root_of_leaves};
use second::wallet::{write_case, Note, Plan};

/// A ledger in use.
#[derive(Clone)]
pub struct Shift {
    pub random: Random,
    pub ledger: Ledger,
    pub purse: Purse,
}

impl Shift {
    /// A fresh ledger with this much room, its spare bytes not zero.
    pub fn fresh(seed: u64, table_rows: usize, roll_rows: usize) -> Shift {
        let mut random = Random::new(seed);
        let mut table = vec![0; table_rows * ROW_BYTES + random.below(ROW_BYTES)];
        let mut roll = vec![0; roll_rows * ROW_BYTES + random.below(ROW_BYTES)];
        random.fill(&mut table);
        random.fill(&mut roll);
        let (ledger, answer) = Ledger::open(table, roll);
        assert_eq!(answer, Answer::PASSED);
        let purse = Purse::fresh(&mut random);
        Shift {
            random,
            ledger,
            purse,
        }
    }

    /// A ledger with a few cases, three closed blocks and an open one.
    pub fn busy(seed: u64) -> Shift {
        let mut shift = Shift::fresh(seed, 30, 8);
        for cases in [2, 2, 2] {
            (0..cases).for_each(|_| shift.pass());
            shift.close();
        }
        shift.pass();
        shift
    }

    /// A ledger that has only the anchors of a tree of notes of any value.
    pub fn elsewhere(seed: u64) -> Shift {
        let mut random = Random::new(seed);
        let values = [u64::MAX, u64::MAX, MAX_MONEY.0 + 1, 7_000, 3_000, 1].map(Amount);
        let purse = Purse::from_elsewhere(&mut random, &values);
        let mut ledger = Ledger::zeroed(vec![0; 30 * ROW_BYTES], Vec::new());
        ledger.pool = purse.pool;
        for anchor in purse.anchors() {
            ledger.roll.extend(anchor.root);
            ledger.anchors += 1;
        }
        Shift {
            random,
            ledger,
            purse,
        }
    }

    /// A case that must be accepted.
    pub fn good_case(&mut self) -> Case {
        self.purse.good_case(&mut self.random)
    }

    /// Has a good case accepted.
    pub fn pass(&mut self) {
        let case = self.good_case();
        assert_eq!(judge(&mut self.ledger, &case.to_bytes()), Answer::PASSED);
        self.purse.settle(&case);
    }

    /// Closes a block.
    pub fn close(&mut self) {
        assert_eq!(self.ledger.close_block(), Answer::PASSED);
        let root = self.purse.close_block();
        assert_eq!(self.ledger.anchor_rows().last().copied(), root);
    }

    /// A good case bent, if it can be.
    pub fn bent_case(&mut self, bend: &Bend) -> Option<Case> {
        let case = self.good_case();
        self.bend(bend, case)
    }

    /// A case bent, if it can be.
    pub fn bend(&mut self, bend: &Bend, case: Case) -> Option<Case> {
        let mut bench = Bench {
            random: &mut self.random,
            purse: &self.purse,
        };
        (bend.apply)(&mut bench, case)
    }
}

/// Two notes of these values that are the only leaves of a tree, and its root.
pub fn leaves_of(random: &mut Random, values: [u64; 2]) -> ([OldNote; 2], Bytes32) {
    let notes = values.map(|value| Note::random(random, Amount(value)));
    let leaves = [notes[0].commitment(), notes[1].commitment()];
    let old = [0, 1].map(|place| {
        let position = Position(place as u32);
        notes[place].at(position, path_of_leaf(&leaves, position))
    });
    (old, root_of_leaves(&leaves))
}

/// A right case over these notes and their root that puts in and takes out so
/// much; its first new note has what is left.
pub fn case_over(
    random: &mut Random,
    (old, anchor): ([OldNote; 2], Bytes32),
    vpub_old: u64,
    vpub_new: u64,
) -> Case {
    let left = vpub_old + old[0].value.0 + old[1].value.0 - vpub_new;
    let plan = Plan {
        vpub_old: Amount(vpub_old),
        vpub_new: Amount(vpub_new),
        anchor,
        old,
        new: [left, 0].map(|value| (random.bytes(), Amount(value))),
    };
    write_case(random, plan)
}

/// A right case that changes the pool by this: it puts in, or takes out of a
/// note of as much.
pub fn case_asking(random: &mut Random, change: i64) -> Case {
    let amount = change.unsigned_abs();
    let (vpub_old, vpub_new) = if change < 0 { (0, amount) } else { (amount, 0) };
    let notes = leaves_of(random, [vpub_new, 0]);
    case_over(random, notes, vpub_old, vpub_new)
}

/// A ledger of no nullifiers with this in its pool, room for these cases, and
/// their anchors on its roll.
pub fn ledger_for(pool: u64, cases: &[&Case]) -> Ledger {
    let roll: Vec<u8> = cases.iter().flat_map(|case| case.anchor).collect();
    let mut ledger = Ledger::zeroed(vec![0xa5; (2 * cases.len() + 2) * ROW_BYTES], roll);
    ledger.anchors = cases.len() as u64;
    ledger.pool = pool;
    ledger
}
