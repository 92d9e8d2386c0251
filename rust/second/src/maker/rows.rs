//! Runs for the row that a refusal as spent names: a nullifier in the first row
//! of a table, in a middle one and in the last, at either place; two that are
//! both spent; rows that later cases shift, or leave where they are. Every long
//! tape has them all, beside the entries that it was asked for.
//!
//! The tables are laid out by the first bytes of their rows, so each row that an
//! answer has to name is known before anything is judged.

use crate::answer::{Answer, Row};
use crate::bytes::Bytes32;
use crate::case::{Amount, Case};
use crate::ledger::{Ledger, MAX_POOL, ROW_BYTES};
use crate::random::Random;
use crate::wallet::{balance, write_case, Note, Plan};

use super::by_rule::{depot, rising_through};
use super::purse::Purse;
use super::scenes::{ledger_from_elsewhere, ragged_length, write_row, LONG_TABLE};
use super::Maker;

/// All of them.
pub(super) fn spent_rows(maker: &mut Maker) {
    last_of_a_long_table(maker);
    rows_of_eight(maker);
    shifted_rows(maker);
}

/// Eight rows. The first, the fourth and the last are nullifiers of notes; one
/// more stands in the row behind them, which is not in use.
fn rows_of_eight(maker: &mut Maker) {
    maker.name("spent-in-first-row");
    maker.purse = Purse::from_elsewhere(&mut maker.random, &[Amount(1)]);
    let [first, middle, last, spare] = notes_with(maker, [0x10, 0x40, 0x80, 0x90]);
    let [above_first, below_middle] = notes_with(maker, [0x18, 0x28]);
    let others = [0x20, 0x30, 0x50, 0x60, 0x70].map(|byte| row_with(&mut maker.random, byte));
    let spent = [&first, &middle, &last].map(Note::nullifier);
    let mut ledger = ledger_of(maker, &[&spent[..], &others].concat(), 4);
    write_row(&mut ledger.table, 8, &spare.nullifier());
    maker.plant(&ledger, "eight rows");

    at_both_places(maker, &first, &above_first, Row(0));
    maker.name("spent-in-middle-row");
    at_both_places(maker, &middle, &below_middle, Row(3));
    maker.name("spent-in-last-row");
    at_both_places(maker, &last, &spare, Row(7));
    maker.name("both-spent");
    judge_notes(maker, [&middle, &last], Answer::spent(1, Row(3)));
    judge_notes(maker, [&last, &middle], Answer::spent(1, Row(7)));
    maker.leave_ledger();
}

/// A spent note at place 1, then at place 2, beside one that is not spent.
pub(super) fn at_both_places(maker: &mut Maker, spent: &Note, unspent: &Note, row: Row) {
    judge_notes(maker, [spent, unspent], Answer::spent(1, row));
    judge_notes(maker, [unspent, spent], Answer::spent(2, row));
}

/// One case is refused as spent again and again, and others are accepted
/// between. Those below its nullifier shift the row, those above do not. The
/// first of the others has rows beside its nullifiers that are off in the last
/// byte alone.
fn shifted_rows(maker: &mut Maker) {
    maker.name("row-before-a-shift");
    maker.purse = Purse::from_elsewhere(&mut maker.random, &[Amount(1)]);
    let [spent, unspent] = notes_with(maker, [0x80, 0x30]);
    let below = notes_with(maker, [0x20, 0x40]);
    let mut rows = below.each_ref().map(beside_in_last_byte).concat();
    rows.extend([spent.nullifier(), row_with(&mut maker.random, 0xa0)]);
    let ledger = ledger_of(maker, &rows, 8);
    maker.plant(&ledger, "rows to be shifted");
    let asked = case_over(maker, [&spent, &unspent]);
    judge_asked(maker, &asked, Row(4));

    maker.name("off-in-the-last-byte");
    let near = case_over(maker, [&below[0], &below[1]]);
    maker.judge(&near, Answer::PASSED, "rows off in the last byte");
    judge_asked(maker, &near, Row(1));
    maker.name("row-shifted-by-two");
    judge_asked(maker, &asked, Row(6));
    maker.name("row-not-shifted");
    accept(maker, [0xd0, 0xc0]);
    judge_asked(maker, &asked, Row(6));
    maker.name("row-shifted-by-one");
    accept(maker, [0xe0, 0x60]);
    judge_asked(maker, &asked, Row(7));
    maker.leave_ledger();
}

/// Two rows that differ from a note's nullifier in the last byte alone: one right
/// below it and one right above.
fn beside_in_last_byte(note: &Note) -> [Bytes32; 2] {
    let (mut low, mut high) = (note.nullifier(), note.nullifier());
    low[ROW_BYTES - 1] -= 1;
    high[ROW_BYTES - 1] += 1;
    [low, high]
}

fn judge_asked(maker: &mut Maker, case: &Case, row: Row) {
    maker.judge(case, Answer::spent(1, row), "spent, asked again");
}

/// A case with nullifiers of these first bytes, which is accepted.
fn accept(maker: &mut Maker, bytes: [u8; 2]) {
    let [one, other] = notes_with(maker, bytes);
    judge_notes(maker, [&one, &other], Answer::PASSED);
}

/// A table of 2,048 rows, of which 2,046 are used. The last of these is the first
/// nullifier of a case, which comes before the table is full and once it is: that
/// is asked first, and names no row.
fn last_of_a_long_table(maker: &mut Maker) {
    let last = LONG_TABLE - 3;
    maker.name(&format!("spent-in-row-{last}"));
    maker.purse = Purse::from_elsewhere(&mut maker.random, &[Amount(1), Amount(2)]);
    let case = maker.purse.good_case(&mut maker.random);
    maker.purse.mark_spent(&case.old[0]);
    let table = ragged_length(&mut maker.random, LONG_TABLE);
    let fill = rising_through(LONG_TABLE, last, &case.nullifiers[0]);
    depot(LONG_TABLE - 2, table).plant_rows(maker, &fill);
    let answer = Answer::spent(1, Row(last as u64));
    maker.judge(&case, answer, "nullifier in the last row");
    maker.name("spent-in-a-full-table");
    maker.good_case();
    let file = case.to_bytes();
    maker.ask_case(&file, Answer::new(3, 0), "spent, and the table is full");
    maker.leave_ledger();
}

/// A sound ledger of these rows, in order, with room for so many more.
fn ledger_of(maker: &mut Maker, rows: &[Bytes32], more: usize) -> Ledger {
    let mut rows = rows.to_vec();
    rows.sort();
    let table = ragged_length(&mut maker.random, rows.len() + more);
    ledger_from_elsewhere(maker, &rows, table, 2)
}

fn row_with(random: &mut Random, first_byte: u8) -> Bytes32 {
    let mut row: Bytes32 = random.bytes();
    row[0] = first_byte;
    row
}

/// Notes without value whose nullifiers begin with these bytes.
pub(super) fn notes_with<const N: usize>(maker: &mut Maker, first_bytes: [u8; N]) -> [Note; N] {
    first_bytes.map(|byte| note_with(&mut maker.random, byte))
}

/// Its nullifier's last byte has one below it and one above.
fn note_with(random: &mut Random, first_byte: u8) -> Note {
    loop {
        let note = Note::random(random, Amount::ZERO);
        let nullifier = note.nullifier();
        let last_byte = nullifier[ROW_BYTES - 1];
        if nullifier[0] == first_byte && (1..u8::MAX).contains(&last_byte) {
            return note;
        }
    }
}

pub(super) fn judge_notes(maker: &mut Maker, notes: [&Note; 2], answer: Answer) {
    let case = case_over(maker, notes);
    maker.judge(&case, answer, "nullifiers of chosen rows");
}

/// A right case over two notes without value. It puts a little in, if the pool
/// can take it.
fn case_over(maker: &mut Maker, notes: [&Note; 2]) -> Case {
    let little = 1 + maker.random.below(1_000) as u64;
    let amount = little.min(MAX_POOL - maker.purse.pool);
    case_putting(maker, notes, Amount(amount))
}

/// A right case over two notes without value, at an anchor of the purse, that
/// puts this much in.
pub(super) fn case_putting(maker: &mut Maker, notes: [&Note; 2], amount: Amount) -> Case {
    let random = &mut maker.random;
    let plan = Plan {
        vpub_old: amount,
        vpub_new: Amount::ZERO,
        anchor: maker.purse.anchors()[0].root,
        old: notes.map(|note| note.nowhere(random)),
        new: [
            (random.bytes(), Amount::ZERO),
            (random.bytes(), Amount::ZERO),
        ],
    };
    let mut case = write_case(random, plan);
    assert!(balance(random, &mut case), "a small amount is balanced");
    case
}
