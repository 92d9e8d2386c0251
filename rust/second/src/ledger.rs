//! The ledger: the nullifier table, the anchor roll, the tree, the counts
//! and the pool.

use crate::answer::{Answer, Row};
use crate::bytes::Bytes32;
use crate::case::Case;
use crate::tree::{empty_root, Record, Tree, DEPTH};

/// The bytes of a table row or a roll row.
pub const ROW_BYTES: usize = 32;

/// The most nullifiers that a ledger has room for.
pub const MAX_SPENT: usize = 65_536;

/// The most anchors that a ledger has room for.
pub const MAX_ANCHORS: usize = 4_096;

/// The most that the pool may hold: 2,100,000,000,000,000.
pub const MAX_POOL: u64 = 2_100_000_000_000_000;

/// A ledger with the buffers that were lent to it. Every field may hold
/// anything at all: a ledger from elsewhere may be damaged.
#[derive(Clone, Debug, PartialEq, Eq)]
pub struct Ledger {
    /// The table's bytes, spare ones included.
    pub table: Vec<u8>,
    /// The roll's bytes, spare ones included.
    pub roll: Vec<u8>,
    /// Nullifiers, that is, used table rows.
    pub spent: u64,
    /// Anchors, that is, used roll rows.
    pub anchors: u64,
    /// What has gone in, less what has come out.
    pub pool: u64,
    /// The commitment tree.
    pub tree: Tree,
}

impl Ledger {
    /// A ledger whose record, counts and pool are all zero.
    pub fn zeroed(table: Vec<u8>, roll: Vec<u8>) -> Ledger {
        Ledger {
            table,
            roll,
            spent: 0,
            anchors: 0,
            pool: 0,
            tree: Tree::planted(Record::EMPTY),
        }
    }

    /// Opens a fresh ledger on these buffers. Refusal 1 if the roll has no
    /// row: then the buffers stay and the rest is all zero.
    pub fn open(table: Vec<u8>, roll: Vec<u8>) -> (Ledger, Answer) {
        let mut ledger = Ledger::zeroed(table, roll);
        if ledger.roll_room() == 0 {
            return (ledger, Answer::new(1, 0));
        }
        ledger.tree = Tree::fresh();
        ledger.add_anchor(&empty_root(DEPTH));
        (ledger, Answer::PASSED)
    }

    /// Rows that the table has room for.
    pub fn table_room(&self) -> u64 {
        room(&self.table, MAX_SPENT)
    }

    /// Rows that the roll has room for.
    pub fn roll_room(&self) -> u64 {
        room(&self.roll, MAX_ANCHORS)
    }

    /// Table rows that are free; none if the count is above room.
    pub fn free_table_rows(&self) -> u64 {
        self.table_room().saturating_sub(self.spent)
    }

    /// Roll rows that are free; none if the count is above room.
    pub fn free_roll_rows(&self) -> u64 {
        self.roll_room().saturating_sub(self.anchors)
    }

    /// The used table rows, as far as the table has room for them.
    pub fn spent_rows(&self) -> &[Bytes32] {
        used_rows(&self.table, self.spent, self.table_room())
    }

    /// The used roll rows, as far as the roll has room for them.
    pub fn anchor_rows(&self) -> &[Bytes32] {
        used_rows(&self.roll, self.anchors, self.roll_room())
    }

    /// The used table row in which this nullifier stands, from the top.
    pub fn row_of(&self, nullifier: &Bytes32) -> Option<Row> {
        let mut rows = self.spent_rows().iter();
        let index = rows.position(|row| row == nullifier)?;
        Some(Row(index as u64))
    }

    /// Whether this nullifier is in the table.
    pub fn has_spent(&self, nullifier: &Bytes32) -> bool {
        self.row_of(nullifier).is_some()
    }

    /// Whether this anchor is on the roll.
    pub fn has_anchor(&self, anchor: &Bytes32) -> bool {
        self.anchor_rows().contains(anchor)
    }

    /// Whether the ledger is damaged, which is refusal 2.
    pub fn is_damaged(&self) -> bool {
        !self.spent.is_multiple_of(2)
            || self.spent > self.table_room()
            || !is_strictly_rising(self.spent_rows())
            || u64::from(self.tree.count()) != self.spent
            || self.anchors == 0
            || self.anchors > self.roll_room()
            || !is_pool(self.pool.into())
    }

    /// What acceptance would leave in the pool, as a whole number.
    pub fn pool_after(&self, case: &Case) -> i128 {
        i128::from(self.pool) + case.asked_of_pool()
    }

    /// Enters a case that nothing refuses.
    pub fn accept(&mut self, case: &Case) {
        let mut rows = self.spent_rows().to_vec();
        rows.extend(case.nullifiers);
        rows.sort();
        write_rows(&mut self.table, &rows);
        self.spent += 2;
        for commitment in &case.commitments {
            self.tree.append(commitment);
        }
        self.pool = self
            .pool_after(case)
            .try_into()
            .expect("no case is accepted that takes the pool outside its bounds");
    }

    /// Closes a block: the current root goes onto the roll.
    pub fn close_block(&mut self) -> Answer {
        if self.is_damaged() {
            return Answer::new(2, 0);
        }
        if self.free_roll_rows() == 0 {
            return Answer::new(3, 0);
        }
        self.add_anchor(&self.tree.root());
        Answer::PASSED
    }

    /// Writes the next roll row; there must be one.
    fn add_anchor(&mut self, root: &Bytes32) {
        let mut rows = self.anchor_rows().to_vec();
        rows.push(*root);
        write_rows(&mut self.roll, &rows);
        self.anchors += 1;
    }
}

/// Whole rows of a buffer, at most the limit.
fn room(buffer: &[u8], limit: usize) -> u64 {
    (buffer.len() / ROW_BYTES).min(limit) as u64
}

/// The first rows of a buffer, as many as are used.
fn used_rows(buffer: &[u8], used: u64, room: u64) -> &[Bytes32] {
    let (rows, _) = buffer.as_chunks::<ROW_BYTES>();
    &rows[..used.min(room) as usize]
}

/// Writes these rows over the first rows of a buffer; later bytes stay.
fn write_rows(buffer: &mut [u8], rows: &[Bytes32]) {
    let bytes = rows.as_flattened();
    buffer[..bytes.len()].copy_from_slice(bytes);
}

fn is_strictly_rising(rows: &[Bytes32]) -> bool {
    rows.windows(2).all(|pair| pair[0] < pair[1])
}

/// Whether the pool may be this: no less than nothing, no more than all money.
pub fn is_pool(amount: i128) -> bool {
    (0..=i128::from(MAX_POOL)).contains(&amount)
}
