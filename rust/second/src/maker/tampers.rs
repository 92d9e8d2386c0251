//! Ledgers to plant: each kind of damage, and its near misses.

use crate::bytes::Bytes32;
use crate::ledger::{Ledger, MAX_POOL, ROW_BYTES};
use crate::random::Random;
use crate::tree::{Record, Tree, DEPTH};

/// One way to change a sound ledger of at least four nullifiers, with room
/// for at least two more, and at least two anchors and a free roll row.
pub struct Tamper {
    /// What is changed, in a few words.
    pub name: &'static str,
    /// Whether the ledger is damaged by it.
    pub damages: bool,
    /// The change.
    pub apply: fn(&mut Random, &mut Ledger),
}

const fn damage(name: &'static str, apply: fn(&mut Random, &mut Ledger)) -> Tamper {
    Tamper {
        name,
        damages: true,
        apply,
    }
}

const fn near_miss(name: &'static str, apply: fn(&mut Random, &mut Ledger)) -> Tamper {
    Tamper {
        name,
        damages: false,
        apply,
    }
}

/// All of them.
pub const TAMPERS: &[Tamper] = &[
    near_miss("as it was", |_, _| ()),
    near_miss("unused record nodes filled", fill_unused_nodes),
    near_miss("waiting record nodes replaced", replace_waiting_nodes),
    near_miss("spare bytes filled", fill_spare_bytes),
    near_miss("anchors repeated", repeat_anchors),
    near_miss("no nullifiers", |_, ledger| {
        set_both_counts(ledger, 0);
    }),
    near_miss("two nullifiers fewer", |_, ledger| {
        set_both_counts(ledger, ledger.spent - 2);
    }),
    near_miss("table cut to its used rows", |random, ledger| {
        cut(random, &mut ledger.table, ledger.spent);
    }),
    near_miss("table cut to one free row", |random, ledger| {
        cut(random, &mut ledger.table, ledger.spent + 1);
    }),
    near_miss("table cut to two free rows", |random, ledger| {
        cut(random, &mut ledger.table, ledger.spent + 2);
    }),
    near_miss("roll cut to its used rows", |random, ledger| {
        cut(random, &mut ledger.roll, ledger.anchors);
    }),
    near_miss("one anchor", |_, ledger| ledger.anchors = 1),
    near_miss("rows rise in the last byte only", |_, ledger| {
        last_bytes(ledger, |row| row as u8 + 1);
    }),
    near_miss("rows rise across the sign bit", |_, ledger| {
        first_bytes(ledger, [0x7f, 0x80]);
    }),
    near_miss("pool of nothing", |_, ledger| ledger.pool = 0),
    near_miss("pool of all money", |_, ledger| ledger.pool = MAX_POOL),
    near_miss("pool of all money without nullifiers", |_, ledger| {
        set_both_counts(ledger, 0);
        ledger.pool = MAX_POOL;
    }),
    damage("pool one above all money", |_, ledger| {
        ledger.pool = MAX_POOL + 1;
    }),
    damage("pool of all money for each case", |_, ledger| {
        ledger.pool = ledger.spent / 2 * MAX_POOL;
    }),
    damage("pool of minus one as a signed number", |_, ledger| {
        ledger.pool = u64::MAX;
    }),
    damage("pool of minus all money as a signed number", |_, ledger| {
        ledger.pool = MAX_POOL.wrapping_neg();
    }),
    damage("pool of 2^63 - 1", |_, ledger| ledger.pool = (1 << 63) - 1),
    damage("pool of 2^63", |_, ledger| ledger.pool = 1 << 63),
    damage("one nullifier more", |_, ledger| {
        set_both_counts(ledger, ledger.spent + 1);
    }),
    damage("one nullifier fewer", |_, ledger| {
        set_both_counts(ledger, ledger.spent - 1);
    }),
    damage("one nullifier, one leaf", |_, ledger| {
        set_both_counts(ledger, 1);
    }),
    damage("table cut by one row", |random, ledger| {
        cut(random, &mut ledger.table, ledger.spent - 1);
    }),
    damage("table cut by two rows", |random, ledger| {
        cut(random, &mut ledger.table, ledger.spent - 2);
    }),
    damage("table of no length", |_, ledger| ledger.table.clear()),
    damage("count two above room", |_, ledger| {
        let above = ledger.table_room() / 2 * 2 + 2;
        set_both_counts(ledger, above);
    }),
    damage("first two rows equal", |_, ledger| copy_row(ledger, 0, 1)),
    damage("last two rows equal", |_, ledger| {
        let last = ledger.spent as usize - 1;
        copy_row(ledger, last - 1, last);
    }),
    damage("first two rows swapped", |_, ledger| {
        swap_rows(ledger, 0, 1);
    }),
    damage("last two rows swapped", |_, ledger| {
        let last = ledger.spent as usize - 1;
        swap_rows(ledger, last - 1, last);
    }),
    damage("rows fall in the last byte only", |_, ledger| {
        last_bytes(ledger, |row| 255 - row as u8);
    }),
    damage("rows equal but for the last, which falls", |_, ledger| {
        first_bytes(ledger, [0x80, 0x7f]);
    }),
    damage("two leaves more", |_, ledger| {
        set_leaf_count(ledger, ledger.tree.count() + 2);
    }),
    damage("two leaves fewer", |_, ledger| {
        set_leaf_count(ledger, ledger.tree.count() - 2);
    }),
    damage("one leaf more", |_, ledger| {
        set_leaf_count(ledger, ledger.tree.count() + 1);
    }),
    damage("no leaves", |_, ledger| set_leaf_count(ledger, 0)),
    damage("2^16 leaves more", |_, ledger| {
        set_leaf_count(ledger, ledger.tree.count() + (1 << 16));
    }),
    damage("2^32 - 1 leaves", |_, ledger| {
        set_leaf_count(ledger, u32::MAX);
    }),
    damage("no anchors", |_, ledger| ledger.anchors = 0),
    damage("anchors one above room", |_, ledger| {
        ledger.anchors = ledger.roll_room() + 1;
    }),
    damage("roll cut by one row", |random, ledger| {
        cut(random, &mut ledger.roll, ledger.anchors - 1);
    }),
    damage("roll of no length", |_, ledger| ledger.roll.clear()),
    damage("2^64 - 1 nullifiers", |_, ledger| {
        set_both_counts(ledger, u64::MAX);
    }),
    damage("2^64 - 2 nullifiers", |_, ledger| {
        set_both_counts(ledger, u64::MAX - 1);
    }),
    damage("2^63 nullifiers, no leaves", |_, ledger| {
        set_both_counts(ledger, 1 << 63);
    }),
    damage("2^59 nullifiers more", |_, ledger| {
        ledger.spent += 1 << 59;
    }),
    damage("2^32 nullifiers more", |_, ledger| {
        ledger.spent += 1 << 32;
    }),
    damage("2^64 - 1 anchors", |_, ledger| ledger.anchors = u64::MAX),
    damage("2^59 anchors more", |_, ledger| ledger.anchors += 1 << 59),
    damage("2^32 anchors more", |_, ledger| ledger.anchors += 1 << 32),
    damage("2^63 anchors", |_, ledger| ledger.anchors = 1 << 63),
];

fn set_record(ledger: &mut Ledger, record: Record) {
    ledger.tree = Tree::planted(record);
}

fn set_leaf_count(ledger: &mut Ledger, count: u32) {
    let mut record = ledger.tree.record().clone();
    record.count = count;
    set_record(ledger, record);
}

/// The leaf count follows as far as its 32 bits go.
fn set_both_counts(ledger: &mut Ledger, count: u64) {
    ledger.spent = count;
    set_leaf_count(ledger, count as u32);
}

/// Leaves this many rows, and perhaps some bytes of another.
fn cut(random: &mut Random, buffer: &mut Vec<u8>, rows: u64) {
    buffer.truncate(rows as usize * ROW_BYTES + random.below(ROW_BYTES));
}

/// Random bytes in the nodes that do not count.
pub fn fill_unused_nodes(random: &mut Random, ledger: &mut Ledger) {
    let mut record = ledger.tree.record().clone();
    for level in 0..=DEPTH {
        if !record.is_waiting(level) {
            record.nodes[level] = random.bytes();
        }
    }
    set_record(ledger, record);
}

/// Random bytes in the nodes that count: another tree's record.
fn replace_waiting_nodes(random: &mut Random, ledger: &mut Ledger) {
    let mut record = ledger.tree.record().clone();
    for level in 0..=DEPTH {
        if record.is_waiting(level) {
            record.nodes[level] = random.bytes();
        }
    }
    set_record(ledger, record);
}

/// Random bytes past the used rows, none of them zero: then a spare byte that
/// is cleared, or written over, shows.
pub fn fill_spare_bytes(random: &mut Random, ledger: &mut Ledger) {
    let spent = ledger.spent as usize * ROW_BYTES;
    let anchors = ledger.anchors as usize * ROW_BYTES;
    let spare = ledger.table[spent..].iter_mut();
    for byte in spare.chain(&mut ledger.roll[anchors..]) {
        *byte = 1 + random.below(255) as u8;
    }
}

fn repeat_anchors(_: &mut Random, ledger: &mut Ledger) {
    let last: Bytes32 = *ledger.anchor_rows().last().expect("an anchor");
    for row in ledger.roll.chunks_exact_mut(ROW_BYTES).skip(1) {
        row.copy_from_slice(&last);
    }
}

fn row_of(ledger: &mut Ledger, row: usize) -> &mut [u8] {
    &mut ledger.table[row * ROW_BYTES..(row + 1) * ROW_BYTES]
}

fn copy_row(ledger: &mut Ledger, from: usize, to: usize) {
    let bytes = row_of(ledger, from).to_vec();
    row_of(ledger, to).copy_from_slice(&bytes);
}

fn swap_rows(ledger: &mut Ledger, one: usize, other: usize) {
    let bytes = row_of(ledger, one).to_vec();
    copy_row(ledger, other, one);
    row_of(ledger, other).copy_from_slice(&bytes);
}

/// Used rows that are all the same but for the last byte.
fn last_bytes(ledger: &mut Ledger, last_byte: fn(usize) -> u8) {
    for row in 0..ledger.spent as usize {
        copy_row(ledger, 0, row);
        row_of(ledger, row)[ROW_BYTES - 1] = last_byte(row);
    }
}

/// Used rows of zero bytes whose last byte rises, but for the last two,
/// which begin with these bytes.
fn first_bytes(ledger: &mut Ledger, last_two: [u8; 2]) {
    let count = ledger.spent as usize;
    for row in 0..count {
        row_of(ledger, row).fill(0);
        row_of(ledger, row)[ROW_BYTES - 1] = row as u8;
    }
    row_of(ledger, count - 2)[0] = last_two[0];
    row_of(ledger, count - 1)[0] = last_two[1];
}
