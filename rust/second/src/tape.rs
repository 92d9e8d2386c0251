//! Tapes: runs of calls on one ledger, and the lines that they print.
//!
//! A tape is a run of entries: a kind (one ASCII byte), a length (4 bytes,
//! little-endian, at most 131,072) and a body of that length.
//!
//! | kind | body | what it does | what it prints |
//! |---|---|---|---|
//! | `O` | table length (4), roll length (4) | opens a fresh ledger on zeroed buffers | `open N P` |
//! | `F` | empty | opens a fresh ledger on the lent buffers as they stand | `open N P` |
//! | `C` | a case, any bytes | judges it | `case N P`, and behind `case 8 P` the line `row K` |
//! | `D` | a buffer's length (4), at most 4,352, and a draft, any bytes | has the desk write the case of the draft into a buffer of so many bytes 0xA5; where it does, judges the buffer as `C` does its body | `desk N P HASH`, the hash being the SHA-256 of the whole buffer after it; where the desk accepts, the lines of `C` behind |
//! | `B` | empty | closes a block | `block N P` |
//! | `S` | gain (8), offset (8), a seal (25) | judges the seal | `seal N P`, and the pull's bits on a pass |
//! | `L` | empty | looks at the ledger | `ledger spent S leaves L anchors A pool P root HEX` |
//! | `R` | empty | looks at the rows | `spent HEX` for each used table row, at most 2,048 of them, then `anchor HEX` for each used roll row, at most 1,024 |
//! | `M` | empty | looks at the memory | `memory T R N`: the SHA-256 of the whole table, of the whole roll and of the record's 30 nodes, spare bytes and unused nodes included |
//! | `N` | a name, at most 100 bytes | names the run that follows | `run NAME` |
//! | `P` | counts and pool (3 x 8), the tree record, table length (4), roll length (4), both buffers | plants any ledger, damaged ones too | `plant 0 0` |
//! | `K` | as `P` up to the two lengths | plants any ledger on zeroed buffers of those lengths | `plant 0 0` |
//! | `T` | first row (4), number of rows (4), start (8), step (8), tail (24) | fills rows of the lent table by rule | `fill 0 0` |
//! | `A` | the same | fills rows of the lent roll by rule | `fill 0 0` |
//!
//! By the rule the k-th of the rows that are filled, k from 0, is the number
//! start + k * step modulo 2^64, its highest byte first, and then the tail.
//!
//! Anything else, a wrong length, or an end inside an entry prints
//! `tape 50 0` and ends the run.

use std::borrow::Cow;

use crate::answer::Answer;
use crate::bytes::{hex, Bytes32, Reader};
use crate::desk::write_case;
use crate::judge::judge;
use crate::ledger::{Ledger, MAX_ANCHORS, MAX_SPENT, ROW_BYTES};
use crate::seal::{judge_seal, Calibration, Seal};
use crate::sha256::sha256;
use crate::tree::{Record, Tree};

/// The longest body of an entry.
pub const MAX_BODY_BYTES: usize = 131_072;

/// The most table rows that `R` shows.
pub const MAX_SHOWN_SPENT: usize = 2_048;

/// The most roll rows that `R` shows.
pub const MAX_SHOWN_ANCHORS: usize = 1_024;

/// How many rows more than a ledger may use a tape may lend.
pub const ROWS_BEYOND: usize = 2;

/// The longest table that a tape may lend: so many rows and 31 bytes.
pub const MAX_TABLE_BYTES: usize = (MAX_SPENT + ROWS_BEYOND) * ROW_BYTES + ROW_BYTES - 1;

/// The longest roll that a tape may lend: so many rows and 31 bytes.
pub const MAX_ROLL_BYTES: usize = (MAX_ANCHORS + ROWS_BEYOND) * ROW_BYTES + ROW_BYTES - 1;

/// The longest name that a tape or a tray may have.
pub const MAX_NAME_BYTES: usize = 100;

/// The longest buffer that a tape may lend to the desk.
pub const MAX_DESK_BYTES: usize = 4_352;

/// What each byte of such a buffer is before the desk has it.
pub const LENT_BYTE: u8 = 0xa5;

/// What a broken tape answers.
const BROKEN: Answer = Answer::new(50, 0);

/// Plays a whole tape and gives the lines it prints.
pub fn play(tape: &[u8]) -> Vec<String> {
    let mut player = Player::new();
    let mut lines = Vec::new();
    let mut reader = Reader::new(tape);
    while !reader.is_done() {
        let played = read_entry(&mut reader).and_then(|(kind, body)| player.play(kind, body));
        match played {
            Some(printed) => lines.extend(printed),
            None => {
                lines.push(format!("tape {BROKEN}"));
                break;
            }
        }
    }
    lines
}

/// The next entry, or nothing if the tape ends inside it or it is too long.
fn read_entry<'a>(reader: &mut Reader<'a>) -> Option<(u8, &'a [u8])> {
    let [kind] = reader.take()?;
    let length = reader.u32()? as usize;
    if length > MAX_BODY_BYTES {
        return None;
    }
    Some((kind, reader.run(length)?))
}

/// An entry's bytes.
pub fn entry(kind: u8, body: &[u8]) -> Vec<u8> {
    let mut bytes = vec![kind];
    bytes.extend((body.len() as u32).to_le_bytes());
    bytes.extend(body);
    bytes
}

/// Plays entries one after another on one ledger.
pub struct Player {
    /// The ledger as the entries so far have left it.
    pub ledger: Ledger,
}

impl Player {
    /// A player with an all-zero ledger on buffers of no length.
    pub fn new() -> Player {
        Player {
            ledger: Ledger::zeroed(Vec::new(), Vec::new()),
        }
    }

    /// Plays one entry: the lines it prints, or nothing if it is broken.
    pub fn play(&mut self, kind: u8, body: &[u8]) -> Option<Vec<String>> {
        match kind {
            b'O' => self.open(body),
            b'F' => empty(body).map(|()| self.open_as_lent()),
            b'C' => Some(self.case(body)),
            b'D' => self.draft(body),
            b'B' => empty(body).map(|()| self.close_block()),
            b'S' => play_seal(body),
            b'L' => empty(body).map(|()| vec![ledger_line(&self.ledger)]),
            b'R' => empty(body).map(|()| row_lines(&self.ledger)),
            b'M' => empty(body).map(|()| vec![memory_line(&self.ledger)]),
            b'P' => self.plant(read_plant(body)),
            b'K' => self.plant(read_keep(body)),
            b'T' => fill(&mut self.ledger.table, body),
            b'A' => fill(&mut self.ledger.roll, body),
            b'N' => name_line(body),
            _ => None,
        }
    }

    fn open(&mut self, body: &[u8]) -> Option<Vec<String>> {
        let mut reader = Reader::new(body);
        let (table, roll) = read_lengths(&mut reader)?;
        if !reader.is_done() {
            return None;
        }
        Some(self.open_on(vec![0; table], vec![0; roll]))
    }

    fn open_as_lent(&mut self) -> Vec<String> {
        let table = std::mem::take(&mut self.ledger.table);
        let roll = std::mem::take(&mut self.ledger.roll);
        self.open_on(table, roll)
    }

    fn open_on(&mut self, table: Vec<u8>, roll: Vec<u8>) -> Vec<String> {
        let (ledger, answer) = Ledger::open(table, roll);
        self.ledger = ledger;
        vec![format!("open {answer}")]
    }

    fn case(&mut self, body: &[u8]) -> Vec<String> {
        judge(&mut self.ledger, body).case_lines()
    }

    /// The desk's line, and where it accepts the lines of the case it wrote.
    fn draft(&mut self, body: &[u8]) -> Option<Vec<String>> {
        let (answer, buffer) = ask_desk(body)?;
        let mut lines = vec![desk_line(answer, &buffer)];
        if answer.is_pass() {
            lines.extend(self.case(&buffer));
        }
        Some(lines)
    }

    fn close_block(&mut self) -> Vec<String> {
        vec![format!("block {}", self.ledger.close_block())]
    }

    fn plant(&mut self, read: Option<Ledger>) -> Option<Vec<String>> {
        self.ledger = read?;
        Some(vec![format!("plant {}", Answer::PASSED)])
    }
}

impl Default for Player {
    fn default() -> Player {
        Player::new()
    }
}

/// What the desk answers to a `D` entry, and the buffer after it; nothing if the
/// entry is broken.
pub fn ask_desk(body: &[u8]) -> Option<(Answer, Vec<u8>)> {
    let (length, draft) = body.split_first_chunk()?;
    let length = u32::from_le_bytes(*length) as usize;
    if length > MAX_DESK_BYTES {
        return None;
    }
    let mut buffer = vec![LENT_BYTE; length];
    let answer = write_case(draft, &mut buffer);
    Some((answer, buffer))
}

/// The desk's line, by its answer and the buffer after it.
pub fn desk_line(answer: Answer, buffer: &[u8]) -> String {
    format!("desk {answer} {}", hex(&sha256(buffer)))
}

/// The body of a `D` entry that lends a buffer of this length.
pub fn draft_body(length: usize, draft: &[u8]) -> Vec<u8> {
    [&(length as u32).to_le_bytes(), draft].concat()
}

/// The file that an entry has judged: a case, or what the desk writes of a draft.
/// Nothing if it has none, as where the desk refuses.
pub fn judged_file(kind: u8, body: &[u8]) -> Option<Cow<'_, [u8]>> {
    match kind {
        b'C' => Some(Cow::Borrowed(body)),
        b'D' => {
            let (answer, buffer) = ask_desk(body)?;
            answer.is_pass().then_some(Cow::Owned(buffer))
        }
        _ => None,
    }
}

/// The line of a name, which has at most 100 bytes.
fn name_line(body: &[u8]) -> Option<Vec<String>> {
    let name = std::str::from_utf8(body).ok()?;
    (body.len() <= MAX_NAME_BYTES).then(|| vec![format!("run {name}")])
}

fn empty(body: &[u8]) -> Option<()> {
    body.is_empty().then_some(())
}

/// The table's and the roll's length, both within their limits.
fn read_lengths(reader: &mut Reader) -> Option<(usize, usize)> {
    let table = reader.u32()? as usize;
    let roll = reader.u32()? as usize;
    (table <= MAX_TABLE_BYTES && roll <= MAX_ROLL_BYTES).then_some((table, roll))
}

/// A seal that cannot be read is refusal 20, as in a bag.
fn play_seal(body: &[u8]) -> Option<Vec<String>> {
    let mut reader = Reader::new(body);
    let gain = reader.f64()?;
    let offset = reader.f64()?;
    let seal = reader.run(crate::seal::SEAL_BYTES)?;
    if !reader.is_done() {
        return None;
    }
    let judged = match Seal::read(seal) {
        None => Err(Answer::new(20, 0)),
        Some(seal) => judge_seal(Calibration { gain, offset }, seal),
    };
    Some(vec![match judged {
        Ok(pull) => format!("seal {} {:016x}", Answer::PASSED, pull.to_bits()),
        Err(refusal) => format!("seal {refusal}"),
    }])
}

fn ledger_line(ledger: &Ledger) -> String {
    format!(
        "ledger spent {} leaves {} anchors {} pool {} root {}",
        ledger.spent,
        ledger.tree.count(),
        ledger.anchors,
        ledger.pool,
        hex(&ledger.tree.root())
    )
}

/// The used rows, as many of them as the buffers have room for and a tape shows.
fn row_lines(ledger: &Ledger) -> Vec<String> {
    let spent = ledger.spent_rows().iter().take(MAX_SHOWN_SPENT);
    let anchors = ledger.anchor_rows().iter().take(MAX_SHOWN_ANCHORS);
    let spent = spent.map(|row| format!("spent {}", hex(row)));
    let anchors = anchors.map(|row| format!("anchor {}", hex(row)));
    spent.chain(anchors).collect()
}

/// What no answer shows: all lent bytes, and all nodes of the record. Hashed,
/// so that the line stays short.
fn memory_line(ledger: &Ledger) -> String {
    let nodes = ledger.tree.record().nodes;
    let parts = [&ledger.table, &ledger.roll, nodes.as_flattened()];
    let [table, roll, nodes] = parts.map(|bytes| hex(&sha256(bytes)));
    format!("memory {table} {roll} {nodes}")
}

/// The ledger of a `P` entry, or nothing if the lengths are wrong.
pub fn read_plant(body: &[u8]) -> Option<Ledger> {
    let mut reader = Reader::new(body);
    let mut ledger = read_head(&mut reader)?;
    let lengths = [ledger.table.len(), ledger.roll.len()];
    ledger.table = reader.run(lengths[0])?.to_vec();
    ledger.roll = reader.run(lengths[1])?.to_vec();
    reader.is_done().then_some(ledger)
}

/// The ledger of a `K` entry, or nothing if the lengths are wrong.
pub fn read_keep(body: &[u8]) -> Option<Ledger> {
    let mut reader = Reader::new(body);
    let ledger = read_head(&mut reader)?;
    reader.is_done().then_some(ledger)
}

/// What `P` and `K` have in common: a ledger on zeroed buffers.
fn read_head(reader: &mut Reader) -> Option<Ledger> {
    let spent = reader.u64()?;
    let anchors = reader.u64()?;
    let pool = reader.u64()?;
    let record = Record::read(reader)?;
    let (table, roll) = read_lengths(reader)?;
    Some(Ledger {
        table: vec![0; table],
        roll: vec![0; roll],
        spent,
        anchors,
        pool,
        tree: Tree::planted(record),
    })
}

/// The body of a `P` entry that plants this ledger.
pub fn plant_body(ledger: &Ledger) -> Vec<u8> {
    let mut body = keep_body(ledger);
    body.extend(&ledger.table);
    body.extend(&ledger.roll);
    body
}

/// The body of a `K` entry that plants this ledger on zeroed buffers.
pub fn keep_body(ledger: &Ledger) -> Vec<u8> {
    let mut body = Vec::new();
    body.extend(ledger.spent.to_le_bytes());
    body.extend(ledger.anchors.to_le_bytes());
    body.extend(ledger.pool.to_le_bytes());
    body.extend(ledger.tree.record().to_bytes());
    body.extend((ledger.table.len() as u32).to_le_bytes());
    body.extend((ledger.roll.len() as u32).to_le_bytes());
    body
}

/// Rows that are filled by rule.
#[derive(Clone, Debug, PartialEq, Eq)]
pub struct Fill {
    /// The first of them.
    pub first: u32,
    /// How many they are.
    pub rows: u32,
    /// The number that the first begins with.
    pub start: u64,
    /// How much more each begins with than the one before.
    pub step: u64,
    /// What they all end with.
    pub tail: [u8; 24],
}

impl Fill {
    /// The fill of a `T` or `A` entry, or nothing if the length is wrong.
    pub fn read(body: &[u8]) -> Option<Fill> {
        let mut reader = Reader::new(body);
        let fill = Fill {
            first: reader.u32()?,
            rows: reader.u32()?,
            start: reader.u64()?,
            step: reader.u64()?,
            tail: reader.take()?,
        };
        reader.is_done().then_some(fill)
    }

    /// The body of a `T` or `A` entry.
    pub fn body(&self) -> Vec<u8> {
        let mut body = Vec::new();
        body.extend(self.first.to_le_bytes());
        body.extend(self.rows.to_le_bytes());
        body.extend(self.start.to_le_bytes());
        body.extend(self.step.to_le_bytes());
        body.extend(self.tail);
        body
    }

    /// What the rule gives for the row that has so many filled ones before it.
    pub fn row(&self, before: u64) -> Bytes32 {
        let number = self.start.wrapping_add(before.wrapping_mul(self.step));
        let mut row = [0; ROW_BYTES];
        row[..8].copy_from_slice(&number.to_be_bytes());
        row[8..].copy_from_slice(&self.tail);
        row
    }

    /// Fills rows of a buffer. Nothing, with no byte changed, if it does not
    /// have them all.
    fn write(&self, buffer: &mut [u8]) -> Option<()> {
        let (rows, _) = buffer.as_chunks_mut::<ROW_BYTES>();
        let first = self.first as usize;
        let filled = rows.get_mut(first..first + self.rows as usize)?;
        for (before, row) in filled.iter_mut().enumerate() {
            *row = self.row(before as u64);
        }
        Some(())
    }
}

fn fill(buffer: &mut [u8], body: &[u8]) -> Option<Vec<String>> {
    Fill::read(body)?.write(buffer)?;
    Some(vec![format!("fill {}", Answer::PASSED)])
}
