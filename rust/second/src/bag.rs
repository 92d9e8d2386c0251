//! The bag: a table of contents, a seal, and cases.

use crate::answer::Answer;
use crate::bytes::Reader;
use crate::judge::judge;
use crate::ledger::{Ledger, ROW_BYTES};
use crate::seal::{judge_seal, Calibration, Seal, SEAL_BYTES};

/// The longest bag.
pub const MAX_BAG_BYTES: usize = 65_536;

const MAX_ROWS: u16 = 8;
const ROW_OF_CONTENTS_BYTES: u64 = 9;
const KIND_SEAL: u8 = 1;
const KIND_CASE: u8 = 2;

/// What is in a bag of sound layout.
#[derive(Clone, Debug, PartialEq)]
pub struct Bag<'a> {
    /// The seal.
    pub seal: Seal,
    /// The case files, in order.
    pub cases: Vec<&'a [u8]>,
}

/// One row of the table of contents.
struct Row {
    kind: u8,
    offset: u64,
    length: u64,
}

/// Reads a bag; nothing for any breach of the layout, which is refusal 20.
pub fn read_bag(bytes: &[u8]) -> Option<Bag<'_>> {
    if bytes.len() > MAX_BAG_BYTES {
        return None;
    }
    let mut reader = Reader::new(bytes);
    let rows = read_contents(&mut reader)?;
    if !is_in_order(&rows) || !is_touching(&rows, bytes.len() as u64) {
        return None;
    }
    let mut bodies = rows.iter().map(|row| reader.run(row.length as usize));
    let seal = Seal::read(bodies.next()??)?;
    let cases = bodies.collect::<Option<Vec<_>>>()?;
    Some(Bag { seal, cases })
}

fn read_contents(reader: &mut Reader) -> Option<Vec<Row>> {
    let count = reader.u16()?;
    if !(1..=MAX_ROWS).contains(&count) {
        return None;
    }
    (0..count).map(|_| read_row(reader)).collect()
}

fn read_row(reader: &mut Reader) -> Option<Row> {
    let [kind] = reader.take()?;
    Some(Row {
        kind,
        offset: reader.u32()?.into(),
        length: reader.u32()?.into(),
    })
}

/// The seal comes first, with its length; all others are cases.
fn is_in_order(rows: &[Row]) -> bool {
    let [first, later @ ..] = rows else {
        return false;
    };
    first.kind == KIND_SEAL
        && first.length == SEAL_BYTES as u64
        && later.iter().all(|row| row.kind == KIND_CASE)
}

/// The bodies start right after the table, touch, and end at the end.
fn is_touching(rows: &[Row], bag_length: u64) -> bool {
    let mut next = 2 + ROW_OF_CONTENTS_BYTES * rows.len() as u64;
    for row in rows {
        if row.offset != next {
            return false;
        }
        next += row.length;
    }
    next == bag_length
}

/// Judges a bag on a fresh ledger and gives the lines to print.
pub fn judge_bag(bytes: &[u8]) -> Vec<String> {
    lines_of(bytes, |answer| vec![answer.case_line()])
}

/// The same lines, and behind each case that is refused as spent the line of
/// the row where its nullifier stood.
pub fn explain_bag(bytes: &[u8]) -> Vec<String> {
    lines_of(bytes, Answer::case_lines)
}

/// How a case's answer is told.
type Telling = fn(Answer) -> Vec<String>;

fn lines_of(bytes: &[u8], told: Telling) -> Vec<String> {
    match read_bag(bytes) {
        None => vec![format!("bag {}", Answer::new(20, 0))],
        Some(bag) => judge_contents(&bag, told),
    }
}

fn judge_contents(bag: &Bag, told: Telling) -> Vec<String> {
    if let Err(refusal) = judge_seal(Calibration::PLAIN, bag.seal) {
        return vec![format!("seal {refusal}")];
    }
    let mut ledger = program_ledger();
    let mut lines = vec![format!("seal {}", Answer::PASSED)];
    for case in &bag.cases {
        lines.extend(told(judge(&mut ledger, case)));
    }
    lines.push(format!(
        "ledger spent {} leaves {} pool {}",
        ledger.spent,
        ledger.tree.count(),
        ledger.pool
    ));
    lines
}

/// Rows that the program lends, fewer than a ledger may use.
const PROGRAM_ROWS: (usize, usize) = (2_048, 1_024);

/// A fresh ledger on the program's own buffers.
fn program_ledger() -> Ledger {
    let (table, roll) = PROGRAM_ROWS;
    Ledger::open(vec![0; table * ROW_BYTES], vec![0; roll * ROW_BYTES]).0
}

/// Writes a bag of sound layout around these bodies, the seal's first.
pub fn write_bag(seal: &[u8], cases: &[&[u8]]) -> Vec<u8> {
    let count = 1 + cases.len();
    let mut bag = (count as u16).to_le_bytes().to_vec();
    let mut offset = 2 + 9 * count;
    for (index, body) in std::iter::once(&seal).chain(cases).enumerate() {
        bag.push(if index == 0 { KIND_SEAL } else { KIND_CASE });
        bag.extend((offset as u32).to_le_bytes());
        bag.extend((body.len() as u32).to_le_bytes());
        offset += body.len();
    }
    bag.extend(seal);
    bag.extend(cases.concat());
    bag
}
