//! A ledger and its buffers.

use alloc::vec;
use alloc::vec::Vec;
use core::fmt;

use crate::calls;
use crate::refusal::{Answer, Refusal};
use crate::seal::Calibration;

/// The length of the longest bag.
pub const MAX_BAG_BYTES: usize = 65_536;
/// The length of a ledger beside its table and its roll.
pub const LEDGER_BYTES: usize = 988;
/// The length of a row of the table or of the roll.
pub const ROW_BYTES: usize = 32;
/// The most nullifiers that a ledger has room for, in a table of 2 MiB.
pub const MAX_SPENT: usize = 65_536;
/// The most anchors that a ledger has room for, in a roll of 128 KiB.
pub const MAX_ANCHORS: usize = 4_096;
/// All the money there will ever be, in zatoshi: the highest public value, and
/// the most that a pool can hold.
pub const MAX_MONEY: u64 = 2_100_000_000_000_000;

const REPORT_BYTES: usize = 32;

/// A ledger, with the memory that it stands in.
#[derive(Clone, PartialEq, Eq)]
pub struct Ledger {
    bytes: [u8; LEDGER_BYTES],
    table: Vec<u8>,
    roll: Vec<u8>,
}

impl Ledger {
    /// A fresh ledger with room for this many nullifiers, two for each case
    /// that it is to accept, and for this many anchors, one for the start and
    /// one for each block that is to be closed. Each row takes 32 bytes of
    /// memory. Refused where there is room for no anchor. More than the most
    /// are not used.
    pub fn open(table_rows: usize, anchor_rows: usize) -> Result<Ledger, Refusal> {
        let mut ledger = Ledger {
            bytes: [0; LEDGER_BYTES],
            table: vec![0; table_rows.min(MAX_SPENT) * ROW_BYTES],
            roll: vec![0; anchor_rows.min(MAX_ANCHORS) * ROW_BYTES],
        };
        Refusal::answer(calls::open(&mut ledger.bytes, &mut ledger.roll))?;
        Ok(ledger)
    }

    /// A stored ledger. Whether it is damaged is asked by each call on it.
    pub fn from_parts(bytes: [u8; LEDGER_BYTES], table: Vec<u8>, roll: Vec<u8>) -> Ledger {
        Ledger { bytes, table, roll }
    }

    /// The ledger's bytes, its table and its roll, to be stored.
    pub fn parts(&self) -> (&[u8; LEDGER_BYTES], &[u8], &[u8]) {
        (&self.bytes, &self.table, &self.roll)
    }

    /// Judges a case file of either edition, and enters what is accepted.
    pub fn judge(&mut self, file: &[u8]) -> Answer {
        Refusal::answer(calls::judge(
            file,
            &mut self.bytes,
            &mut self.table,
            &self.roll,
        ))
    }

    /// Closes a block: the root becomes an anchor for later cases.
    pub fn close(&mut self) -> Answer {
        Refusal::answer(calls::close(&mut self.bytes, &self.table, &mut self.roll))
    }

    /// The tree's root as it stands.
    pub fn root(&self) -> [u8; 32] {
        let mut root = [0; 32];
        let code = calls::root(&self.bytes, &mut root);
        // The call refuses nothing but wrong lengths, and the arrays have the right ones.
        assert_eq!(code, 0, "the root of a ledger of {LEDGER_BYTES} bytes");
        root
    }

    /// Judges a bag: refused for its layout or its seal, and otherwise the
    /// answer of each of its cases, in order. A refused case does not stop the
    /// next.
    pub fn scan_bag(
        &mut self,
        bag: &[u8],
        calibration: Calibration,
    ) -> Result<Vec<Answer>, Refusal> {
        let mut report = [0; REPORT_BYTES];
        let Calibration { gain, offset } = calibration;
        let code = calls::bag(
            bag,
            [gain, offset],
            &mut self.bytes,
            &mut self.table,
            &self.roll,
            &mut report,
        );
        Refusal::answer(code)?;
        Ok(case_answers(&report))
    }

    /// Nullifiers in the table.
    pub fn spent(&self) -> u64 {
        u64::from_le_bytes(self.part(0))
    }

    /// Anchors on the roll.
    pub fn anchors(&self) -> u64 {
        u64::from_le_bytes(self.part(8))
    }

    /// What has entered the pool less what has left it, in zatoshi. It is above
    /// [`MAX_MONEY`] only where the ledger is damaged.
    pub fn pool(&self) -> u64 {
        u64::from_le_bytes(self.part(16))
    }

    /// Leaves of the tree.
    pub fn leaves(&self) -> u32 {
        u32::from_le_bytes(self.part(24))
    }

    fn part<const N: usize>(&self, at: usize) -> [u8; N] {
        core::array::from_fn(|i| self.bytes[at + i])
    }
}

/// What the ledger says of itself, and none of its memory.
impl fmt::Debug for Ledger {
    fn fmt(&self, out: &mut fmt::Formatter<'_>) -> fmt::Result {
        out.debug_struct("Ledger")
            .field("spent", &self.spent())
            .field("anchors", &self.anchors())
            .field("leaves", &self.leaves())
            .field("pool", &self.pool())
            .finish_non_exhaustive()
    }
}

/// The answers that a report has.
fn case_answers(report: &[u8; REPORT_BYTES]) -> Vec<Answer> {
    let (words, _) = report.as_chunks::<4>();
    let cases = u32::from_le_bytes(words[0]) as usize;
    let answers = words[1..].iter().take(cases);
    answers
        .map(|word| Refusal::answer(u32::from_le_bytes(*word)))
        .collect()
}
