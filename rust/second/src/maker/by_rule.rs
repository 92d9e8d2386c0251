//! Ledgers whose rows are made by rule, so that long buffers take few bytes of a
//! tape: an entry `K`, then `T` for the table and `A` for the roll.

use crate::bytes::Bytes32;
use crate::ledger::{Ledger, ROW_BYTES};
use crate::random::Random;
use crate::tape::{keep_body, Fill};
use crate::tree::{Node, Record, Tree, DEPTH};

use super::Maker;

/// Counts of a ledger, sound or not, and how many bytes are lent to it.
#[derive(Clone, Copy)]
pub(super) struct Depot {
    pub spent: usize,
    pub table: usize,
    pub anchors: usize,
    pub roll: usize,
}

/// So many nullifiers on a table of so many bytes, and three anchors of five.
pub(super) const fn depot(spent: usize, table: usize) -> Depot {
    Depot {
        spent,
        table,
        anchors: 3,
        roll: 5 * ROW_BYTES + 7,
    }
}

/// So many anchors on a roll of so many bytes, and four nullifiers of eight.
pub(super) const fn depot_of_anchors(anchors: usize, roll: usize) -> Depot {
    Depot {
        spent: 4,
        table: 8 * ROW_BYTES + 5,
        anchors,
        roll,
    }
}

impl Depot {
    /// Table rows that are lent.
    pub fn table_rows(&self) -> usize {
        self.table / ROW_BYTES
    }

    /// Roll rows that are lent.
    pub fn roll_rows(&self) -> usize {
        self.roll / ROW_BYTES
    }

    /// Plants it with any rising rows, and gives back their rule.
    pub fn plant(&self, maker: &mut Maker) -> Fill {
        let table = rising(&mut maker.random, self.table_rows());
        self.plant_rows(maker, &table);
        table
    }

    /// Plants it with these table rows and any record.
    pub fn plant_rows(&self, maker: &mut Maker, table: &Fill) {
        let nodes = std::array::from_fn(|_| maker.random.bytes());
        self.plant_record(maker, table, nodes);
    }

    /// Plants it with these table rows and nodes. All rows of the roll are filled,
    /// too; the purse's anchors are the first.
    pub fn plant_record(&self, maker: &mut Maker, table: &Fill, nodes: [Node; DEPTH + 1]) {
        let count = self.spent as u32;
        let ledger = Ledger {
            table: vec![0; self.table],
            roll: vec![0; self.roll],
            spent: self.spent as u64,
            anchors: self.anchors as u64,
            pool: maker.purse.pool,
            tree: Tree::planted(Record { count, nodes }),
        };
        maker.plant_on_zeros(&ledger, "made by rule");
        maker.fill_table(table);
        let roll = any_rows(&mut maker.random, self.roll_rows());
        maker.fill_roll(&roll);
        let roots: Vec<Node> = maker.purse.anchors().iter().map(|a| a.root).collect();
        for (at, root) in roots.iter().enumerate() {
            maker.fill_roll(&one_row(at, root));
        }
    }
}

impl Maker {
    /// Plants a ledger on zeroed buffers of its lengths; the purse must be set to
    /// fit, but for its pool.
    pub(super) fn plant_on_zeros(&mut self, ledger: &Ledger, purpose: &str) {
        self.leave_ledger();
        self.purse.pool = ledger.pool;
        let body = keep_body(ledger);
        self.put(b'K', &body, Some(format!("planted: {purpose}")));
    }

    pub(super) fn fill_table(&mut self, fill: &Fill) {
        self.put(b'T', &fill.body(), None);
    }

    pub(super) fn fill_roll(&mut self, fill: &Fill) {
        self.put(b'A', &fill.body(), None);
    }
}

/// A rule for so many rows in any order.
pub(super) fn any_rows(random: &mut Random, rows: usize) -> Fill {
    Fill {
        first: 0,
        rows: rows as u32,
        start: random.u64(),
        step: random.u64(),
        tail: random.bytes(),
    }
}

/// A rule for so many rising rows, spread over all that eight bytes can be; the
/// first does not begin with 0.
pub(super) fn rising(random: &mut Random, rows: usize) -> Fill {
    let step = u64::MAX / rows.max(1) as u64;
    Fill {
        start: 1 + random.u64() % (step - 1),
        step,
        ..any_rows(random, rows)
    }
}

/// A rule for so many rising rows of which this one is the one at that place.
pub(super) fn rising_through(rows: usize, at: usize, row: &Bytes32) -> Fill {
    let number = number_of(row);
    let (below, above) = (at as u64, (rows - 1 - at) as u64);
    let step = (number / below.max(1)).min((u64::MAX - number) / above.max(1));
    assert!(step > 0, "there is room for rows on both sides");
    Fill {
        first: 0,
        rows: rows as u32,
        start: number - below * step,
        step,
        tail: tail_of(row),
    }
}

/// This row alone.
pub(super) fn one_row(at: usize, row: &Bytes32) -> Fill {
    Fill {
        first: at as u32,
        rows: 1,
        start: number_of(row),
        step: 0,
        tail: tail_of(row),
    }
}

/// This row in the place of one of the first so many that a rule made: they go on
/// rising.
pub(super) fn among(fill: &Fill, used: usize, row: &Bytes32) -> Fill {
    let beyond = number_of(row).saturating_sub(fill.start);
    let below = beyond.div_ceil(fill.step) as usize;
    one_row(below.min(used - 1), row)
}

/// The number that a row begins with.
pub(super) fn number_of(row: &Bytes32) -> u64 {
    let (number, _) = row.split_first_chunk().expect("a row has eight bytes");
    u64::from_be_bytes(*number)
}

/// What follows that number.
pub(super) fn tail_of(row: &Bytes32) -> [u8; 24] {
    let (_, tail) = row.split_last_chunk().expect("a row has 24 bytes more");
    *tail
}
