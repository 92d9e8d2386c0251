//! Runs for the search of the table: a nullifier in each row and in each gap of
//! short tables and at the edges of a long one, and rows that are off a nullifier
//! in one byte alone. A tape of more than 600 entries has them, beside
//! the entries that it was asked for; the stored one is kept shorter.

use crate::answer::{Answer, Row};
use crate::bytes::Bytes32;
use crate::case::{Amount, Case};
use crate::ledger::ROW_BYTES;
use crate::random::Random;

use super::misses::plant_rows;
use super::purse::Purse;
use super::scenes::LONG_TABLE;
use super::Maker;

/// How long the short tables are. A count is even: any other is damage.
const SHORT: [usize; 4] = [2, 4, 6, 8];

/// How long the long one is. Those of the depots are longer still.
const LONG: usize = LONG_TABLE - 2;

/// How far first bytes have to be from each other and from their ends, so that
/// there are rows enough between.
const APART: u8 = 16;

/// All of them.
pub(super) fn searches(maker: &mut Maker) {
    for rows in SHORT {
        for below in 0..=rows / 2 {
            in_gaps(maker, rows, below);
        }
        for row in 0..rows {
            in_row(maker, rows, row);
        }
    }
    let middle = LONG / 2;
    for below in [0, middle] {
        in_gaps(maker, LONG, below);
    }
    for row in [0, middle, LONG - 1] {
        in_row(maker, LONG, row);
    }
    for byte in 0..ROW_BYTES / 2 {
        beside_in_one_byte(maker, [byte, byte + ROW_BYTES / 2]);
    }
}

/// So many rows below both nullifiers of a case, as many above both, and the
/// others between them. The case passes; a place that is one off shows in the
/// memory.
fn in_gaps(maker: &mut Maker, rows: usize, below: usize) {
    maker.name(&format!("gaps-of-{rows}-rows"));
    let case = case_with(maker, are_apart);
    let [low, high] = sorted(case.nullifiers).map(|row| row[0]);
    let mut table = rows_of(&mut maker.random, 0, low - 1, below);
    table.extend(rows_of(
        &mut maker.random,
        low + 1,
        high - 1,
        rows - 2 * below,
    ));
    table.extend(rows_of(&mut maker.random, high + 1, u8::MAX, below));
    plant_rows(maker, &table, false);
    maker.judge(&case, Answer::PASSED, "nullifiers in gaps");
    maker.look_at_memory("memory after an acceptance");
    maker.leave_ledger();
}

/// A nullifier of a case stands in this row, which the answer has to name: the
/// first one in a row of even number, the second one in one of odd number.
fn in_row(maker: &mut Maker, rows: usize, row: usize) {
    maker.name(&format!("row-{row}-of-{rows}"));
    let case = case_with(maker, are_apart);
    let which = row % 2;
    let spent = case.nullifiers[which];
    let mut table = rows_of(&mut maker.random, 0, spent[0] - 1, row);
    table.push(spent);
    table.extend(rows_of(
        &mut maker.random,
        spent[0] + 1,
        u8::MAX,
        rows - row - 1,
    ));
    plant_rows(maker, &table, false);
    let answer = Answer::spent(which as u8 + 1, Row(row as u64));
    maker.judge(&case, answer, "nullifier in a row");
    maker.leave_ledger();
}

/// For each nullifier of a case the rows right below and right above it, which
/// are off in one byte alone, and on both sides of what a signed byte has as its
/// least. An order that leaves out the byte or has it signed finds a nullifier
/// that is not there, or puts it in another place.
fn beside_in_one_byte(maker: &mut Maker, bytes: [usize; 2]) {
    maker.name(&format!("beside-in-bytes-{}-and-{}", bytes[0], bytes[1]));
    let has_both_sides = |case: &Case| {
        let at = |which: usize| case.nullifiers[which][bytes[which]];
        [0, 1]
            .iter()
            .all(|which| (1..u8::MAX).contains(&at(*which)))
    };
    let case = case_with(maker, has_both_sides);
    let mut rows = Vec::new();
    for (nullifier, byte) in case.nullifiers.into_iter().zip(bytes) {
        let (mut low, mut high) = (nullifier, nullifier);
        low[byte] = (nullifier[byte] - 1).min(0x7f);
        high[byte] = (nullifier[byte] + 1).max(0x80);
        rows.extend([low, high]);
    }
    rows.sort();
    plant_rows(maker, &rows, false);
    maker.judge(&case, Answer::PASSED, "rows beside in one byte");
    maker.look_at_memory("memory after an acceptance");
    maker.judge(&case, maker.spent_again(&case), "case once more");
    maker.leave_ledger();
}

/// A right case that is as it has to be.
fn case_with(maker: &mut Maker, is_wanted: impl Fn(&Case) -> bool) -> Case {
    loop {
        maker.purse = Purse::from_elsewhere(&mut maker.random, &[Amount(1), Amount(2)]);
        let case = maker.purse.good_case(&mut maker.random);
        if is_wanted(&case) {
            return case;
        }
    }
}

/// Whether there is much between the nullifiers, below them and above them.
fn are_apart(case: &Case) -> bool {
    let [low, high] = sorted(case.nullifiers).map(|row| row[0]);
    low >= APART && high - low >= APART && u8::MAX - high >= APART
}

fn sorted(mut rows: [Bytes32; 2]) -> [Bytes32; 2] {
    rows.sort();
    rows
}

/// So many rising rows whose first byte is one of these.
fn rows_of(random: &mut Random, least: u8, most: u8, count: usize) -> Vec<Bytes32> {
    let mut rows: Vec<Bytes32> = (0..count).map(|_| random.bytes()).collect();
    let choices = usize::from(most - least) + 1;
    for row in &mut rows {
        row[0] = least + random.below(choices) as u8;
    }
    rows.sort();
    rows
}
