//! The search of the nullifier table in tables of many lengths, for each row and each gap: where it says that a row
//! stands or goes, which follows from how the tables are made, and how many comparisons it takes.
use std::panic::{catch_unwind, AssertUnwindSafe};

use crate::judge::table::search;
use crate::{choose, counted, variant};

/// Row i of a table has the number 2 i + 1, so an even number 2 i goes into the gap before it. The eight bytes of the
/// number stand at another place in tables of other lengths; all others are zero.
fn numbered(rows: usize, number: usize) -> [u8; 32] {
    let mut row = [0; 32];
    row[rows % 4 * 8..][..8].copy_from_slice(&(number as u64).to_be_bytes());
    row
}

/// How many comparisons halving takes at most: as many as the number of rows has binary digits.
fn enough(rows: usize) -> u32 {
    usize::BITS - rows.leading_zeros()
}

/// A row or a gap, in words.
fn words((what, index): (&str, usize)) -> String {
    format!("{what} {index}")
}

/// What is wrong with a search, if anything is; and the comparisons that it took.
fn searched(table: &[[u8; 32]], number: usize) -> (Option<String>, u32) {
    choose(variant());
    counted();
    let row = numbered(table.len(), number);
    let place = match catch_unwind(AssertUnwindSafe(|| search(table, &row))) {
        Ok(Ok(row)) => Some(("row", row.index())),
        Ok(Err(row)) => Some(("gap", row.index())),
        Err(_) => None,
    };
    let took = counted();
    let right = (["gap", "row"][number % 2], number / 2);
    let wrong = if place != Some(right) {
        Some(format!("gives {} for {}", place.map_or("a stop".to_string(), words), words(right)))
    } else if took > enough(table.len()) {
        Some(format!("takes {took} comparisons to {}", words(right)))
    } else {
        None
    };
    (wrong, took)
}

/// The most comparisons that a search of so many rows takes, or what is wrong with one.
pub fn most_comparisons(rows: usize) -> Result<u32, String> {
    let table: Vec<[u8; 32]> = (0..rows).map(|row| numbered(rows, 2 * row + 1)).collect();
    let mut most = 0;
    for number in 0..=2 * rows {
        let (wrong, took) = searched(&table, number);
        if let Some(wrong) = wrong {
            return Err(format!("search {rows}: {wrong}"));
        }
        most = most.max(took);
    }
    Ok(most)
}
