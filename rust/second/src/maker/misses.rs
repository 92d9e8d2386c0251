//! Runs that a wrong judge just misses: openings on bytes that are not zero,
//! rows that differ in one byte, sums that agree in half of their bits, sums at
//! and above what the balance may come to. Every
//! long tape has them all, beside the entries that it was asked for; only
//! bytes that do not matter are drawn.

use crate::answer::Answer;
use crate::bytes::Bytes32;
use crate::case::{Amount, Case, Position, MAX_MONEY};
use crate::ledger::{Ledger, ROW_BYTES};
use crate::random::Random;
use crate::tree::{path_of_leaf, root_of_leaves, Record, Tree, DEPTH};
use crate::wallet::{set_new_values, write_case, Note, Plan};

use super::purse::Purse;
use super::scenes::{ledger_from_elsewhere, ragged_length, write_row};
use super::Maker;

/// All of them.
pub(super) fn near_misses(maker: &mut Maker) {
    openings_on_ones(maker);
    middle_pair(maker);
    rows_apart_in_one_byte(maker);
    rows_around_nullifiers(maker);
    sums_near_a_half(maker);
    sums_near_the_ceiling(maker);
    ceiling_in_its_place(maker);
}

/// Openings on bytes of 255. One that clears or writes more than the roll's
/// first row, or keeps something of the ledger that was there, shows in the
/// memory; on zeroed bytes it would not.
fn openings_on_ones(maker: &mut Maker) {
    maker.name("open-on-ones");
    open_on_ones(maker, 4 * ROW_BYTES + 5, 3 * ROW_BYTES + 7);
    let case = maker.purse.good_case(&mut maker.random);
    judge_and_close(maker, &case);
    // On the rows that these left: they are spare now, and the case is new.
    maker.open_as_lent();
    look_at_all(maker);
    judge_and_close(maker, &case);

    maker.name("open-on-ones-one-row");
    open_on_ones(maker, 2 * ROW_BYTES, 2 * ROW_BYTES - 1);
    let case = maker.purse.good_case(&mut maker.random);
    judge_and_close(maker, &case);

    maker.name("open-on-ones-refused");
    open_on_ones(maker, 2 * ROW_BYTES + 1, ROW_BYTES - 1);
    let case = maker.purse.good_case(&mut maker.random);
    judge_and_close(maker, &case);
}

/// Every byte is 255, those of the ledger too; then a fresh one is opened.
fn open_on_ones(maker: &mut Maker, table: usize, roll: usize) {
    let ledger = Ledger {
        table: vec![255; table],
        roll: vec![255; roll],
        spent: u64::MAX,
        anchors: u64::MAX,
        pool: u64::MAX,
        tree: Tree::planted(Record {
            count: u32::MAX,
            nodes: [[255; 32]; DEPTH + 1],
        }),
    };
    maker.plant(&ledger, "ones all through");
    look_at_all(maker);
    maker.open_as_lent();
    look_at_all(maker);
}

fn look_at_all(maker: &mut Maker) {
    maker.look_at_ledger();
    maker.look_at_rows();
    maker.look_at_memory("memory around an opening");
}

fn judge_and_close(maker: &mut Maker, case: &Case) {
    maker.judge(case, Answer::PASSED, "good case");
    maker.look_at_memory("memory after an opening and a case");
    maker.close_block();
    look_at_all(maker);
}

/// Four rows of which only the second and the third fall. A walk that looks at
/// every other pair, or at the ends alone, takes them for rising.
fn middle_pair(maker: &mut Maker) {
    for (name, rows, is_damaged) in [
        ("middle-pair-rises", [1, 2, 3, 4], false),
        ("middle-pair-falls", [1, 3, 2, 4], true),
        ("middle-pair-equal", [1, 2, 2, 4], true),
    ] {
        maker.name(name);
        maker.purse = Purse::from_elsewhere(&mut maker.random, &[Amount(1)]);
        plant_rows(maker, &rows.map(|byte| [byte; 32]), is_damaged);
        maker.good_case();
        maker.close_block();
        maker.leave_ledger();
    }
}

/// Plants a ledger with these rows and room for two more cases.
pub(super) fn plant_rows(maker: &mut Maker, rows: &[Bytes32], is_damaged: bool) {
    let table = ragged_length(&mut maker.random, rows.len() + 4);
    let ledger = ledger_from_elsewhere(maker, rows, table, 2);
    assert_eq!(ledger.is_damaged(), is_damaged, "rows that were made so");
    maker.plant(&ledger, "rows of a near miss");
}

/// Two rows that differ in one byte alone, each byte in its turn: rising, and
/// exchanged. An order that leaves out a byte, takes bytes of one word in
/// another order or has them signed answers otherwise to one of them.
fn rows_apart_in_one_byte(maker: &mut Maker) {
    maker.purse = Purse::from_elsewhere(&mut maker.random, &[Amount(1)]);
    for byte in 0..ROW_BYTES {
        maker.name(&format!("rows-apart-in-byte-{byte}"));
        let mut low: Bytes32 = maker.random.bytes();
        let mut high = low;
        (low[byte], high[byte]) = (0x7f, 0x80);
        for (rows, is_damaged) in [([low, high], false), ([high, low], true)] {
            plant_rows(maker, &rows, is_damaged);
            maker.close_block();
            maker.leave_ledger();
        }
    }
}

/// For each byte of a case's nullifiers a row that is off in it alone, by one
/// bit: a search that leaves out a byte finds a nullifier that is not there,
/// and one by another order puts it in another place.
fn rows_around_nullifiers(maker: &mut Maker) {
    maker.name("rows-around-nullifiers");
    maker.purse = Purse::from_elsewhere(&mut maker.random, &[Amount(1), Amount(2)]);
    let case = maker.purse.good_case(&mut maker.random);
    let mut rows = Vec::new();
    for (nullifier, byte) in (0..2 * ROW_BYTES).map(|at| (at / ROW_BYTES, at % ROW_BYTES)) {
        let mut row = case.nullifiers[nullifier];
        row[byte] ^= 1;
        rows.push(row);
    }
    rows.sort();
    plant_rows(maker, &rows, false);
    maker.judge(&case, Answer::PASSED, "rows around the nullifiers");
    maker.look_at_memory("memory after an acceptance");
    maker.judge(&case, maker.spent_again(&case), "case once more");
    maker.leave_ledger();
}

/// 2^32: a sum is kept in two parts, this many times and the rest.
const HALF: u64 = 1 << 32;

/// Values of a case: public in and out, and the two old notes'.
pub(super) struct Values {
    vpub_old: u64,
    vpub_new: u64,
    old: [u64; 2],
}

pub(super) const fn values(vpub_old: u64, old: [u64; 2], vpub_new: u64) -> Values {
    Values {
        vpub_old,
        vpub_new,
        old,
    }
}

/// Sums of 2^32 - 1, 2^32 and 2^32 + 1, one that carries twice, and one of
/// which the public value takes nearly half.
const NEAR_A_HALF: [Values; 5] = [
    values(0, [HALF - 1, 0], 0),
    values(0, [HALF - 1, 1], 0),
    values(1, [1, HALF - 1], 0),
    values(HALF - 1, [HALF - 1, HALF - 1], 0),
    values(0, [HALF, HALF], HALF - 1),
];

/// New values that are 2^32 too high or too low, so that the rests agree, or 1
/// too high or too low, and then the right ones. A sum that loses its carry or
/// is compared in one part alone answers otherwise to one of them.
fn sums_near_a_half(maker: &mut Maker) {
    for values in NEAR_A_HALF {
        maker.name("sums-near-2-to-the-32");
        let case = balanced_case(&mut maker.random, &values);
        plant_for(maker, &case);
        let right = case.value_in() - case.vpub_new.whole();
        let half = u128::from(HALF);
        for wrong in [
            Some(right + half),
            right.checked_sub(half),
            Some(right + 1),
            Some(right - 1),
        ] {
            let Some(total) = wrong else { continue };
            let mut bent = case.clone();
            set_new_values(&mut bent, halved(total));
            maker.judge(&bent, Answer::new(11, 0), "sums near 2^32, unequal");
        }
        maker.judge(&case, Answer::PASSED, "sums near 2^32, equal");
        maker.look_at_ledger();
        maker.leave_ledger();
    }
}

/// 2^64 - 1: the most that either side may come to.
const CEILING: u64 = u64::MAX;

/// All money: the most that a public value may be.
const MOST: u64 = MAX_MONEY.0;

/// Both sides come to exactly 2^64 - 1: by one old note, by two, and by a public
/// value of 1 or of all money that goes in or comes out.
const AT_THE_CEILING: [Values; 6] = [
    values(0, [CEILING, 0], 0),
    values(0, [1, CEILING - 1], 0),
    values(1, [CEILING - 1, 0], 0),
    values(MOST, [0, CEILING - MOST], 0),
    values(0, [CEILING, 0], 1),
    values(0, [0, CEILING], MOST),
];

/// Both come to 2^64, in the same ways, so that the notes of a side with a
/// public value stay within 2^64 - 1; and then far above.
const ABOVE_THE_CEILING: [Values; 9] = [
    values(0, [CEILING, 1], 0),
    values(0, [1 << 63, 1 << 63], 0),
    values(1, [CEILING, 0], 0),
    values(MOST, [0, CEILING - MOST + 1], 0),
    values(0, [1, CEILING], 1),
    values(0, [CEILING, 1], MOST),
    values(0, [CEILING, CEILING], 0),
    values(MOST, [CEILING, CEILING - MOST], 0),
    values(0, [CEILING, CEILING], MOST),
];

/// Sums at the ceiling, and sums above it. In these the first new note has as much
/// as a note can have: for old values of 2^64 - 1 and 1 the new ones are the same.
fn sums_near_the_ceiling(maker: &mut Maker) {
    for values in AT_THE_CEILING {
        maker.name("sums-at-the-ceiling");
        let case = balanced_case(&mut maker.random, &values);
        plant_for(maker, &case);
        maker.judge(&case, Answer::PASSED, "sums at the ceiling");
        maker.look_at_ledger();
        maker.leave_ledger();
    }
    for values in ABOVE_THE_CEILING {
        maker.name("sums-above-the-ceiling");
        let mut case = balanced_case(&mut maker.random, &values);
        let total = case.value_in() - case.vpub_new.whole();
        set_new_values(&mut case, heaped(total));
        plant_for(maker, &case);
        maker.judge(&case, Answer::new(11, 0), "sums above the ceiling");
        maker.look_at_ledger();
        maker.leave_ledger();
    }
}

/// A sum above the ceiling with another thing wrong: a path, which is asked
/// before, or a nullifier, which is asked after.
fn ceiling_in_its_place(maker: &mut Maker) {
    maker.name("ceiling-after-10-before-12");
    let case = balanced_case(&mut maker.random, &ABOVE_THE_CEILING[0]);
    plant_for(maker, &case);
    let mut strayed = case.clone();
    maker.random.flip_bit(&mut strayed.old[0].path[0]);
    maker.judge(&strayed, Answer::new(10, 1), "above the ceiling, 10 too");
    let mut misnamed = case;
    maker.random.flip_bit(&mut misnamed.nullifiers[0]);
    maker.judge(&misnamed, Answer::new(11, 0), "above the ceiling, 12 too");
    maker.leave_ledger();
}

/// Two amounts of this sum, the first as high as can be.
fn heaped(total: u128) -> [Amount; 2] {
    let first = total.min(u128::from(CEILING));
    [first, total - first].map(|share| Amount(share as u64))
}

/// Two amounts of this sum, as equal as can be.
fn halved(total: u128) -> [Amount; 2] {
    [total / 2, total - total / 2].map(|share| Amount(share as u64))
}

/// A right case over two notes of these values.
pub(super) fn balanced_case(random: &mut Random, values: &Values) -> Case {
    let notes = values.old.map(|value| Note::random(random, Amount(value)));
    case_over_leaves(random, &notes, [values.vpub_old, values.vpub_new])
}

/// A right case over two notes that are the only leaves of a tree, with these
/// public values: what goes in, and what comes out.
pub(super) fn case_over_leaves(random: &mut Random, notes: &[Note; 2], public: [u64; 2]) -> Case {
    let leaves = [notes[0].commitment(), notes[1].commitment()];
    let old = [0, 1].map(|place| {
        let position = Position(place as u32);
        notes[place].at(position, path_of_leaf(&leaves, position))
    });
    let plan = Plan {
        vpub_old: Amount(public[0]),
        vpub_new: Amount(public[1]),
        anchor: root_of_leaves(&leaves),
        old,
        new: [
            (random.bytes(), Amount::ZERO),
            (random.bytes(), Amount::ZERO),
        ],
    };
    let mut case = write_case(random, plan);
    let right = case.value_in() - case.vpub_new.whole();
    set_new_values(&mut case, halved(right));
    case
}

/// Plants a ledger for this case: its pool has just what the case takes out.
fn plant_for(maker: &mut Maker, case: &Case) {
    let ledger = ledger_for(maker, 2, case.vpub_new.0, &[case]);
    maker.plant(&ledger, "anchor of two notes");
}

/// A ledger from elsewhere with so many rows and this in its pool, whose roll
/// begins with the anchors of these cases and whose table has room for them.
pub(super) fn ledger_for(maker: &mut Maker, rows: u8, pool: u64, cases: &[&Case]) -> Ledger {
    maker.purse = Purse::from_elsewhere(&mut maker.random, &[Amount(1)]);
    let rows: Vec<Bytes32> = (1..=rows).map(|row| [row; 32]).collect();
    let table = ragged_length(&mut maker.random, rows.len() + 2 * cases.len());
    let mut ledger = ledger_from_elsewhere(maker, &rows, table, 3);
    ledger.pool = pool;
    for (row, case) in cases.iter().enumerate() {
        write_row(&mut ledger.roll, row, &case.anchor);
    }
    ledger
}
