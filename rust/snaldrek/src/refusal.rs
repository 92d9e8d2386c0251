//! What the library refuses, by number, place and row.

use core::error::Error;
use core::fmt;

/// Yes, or the refusal.
pub type Answer = Result<(), Refusal>;

/// The first or the second of a pair: places 1 and 2.
#[derive(Clone, Copy, Debug, PartialEq, Eq, PartialOrd, Ord, Hash)]
pub enum Pair {
    /// Place 1.
    First,
    /// Place 2.
    Second,
}

/// What of a case has a bound on its size.
#[derive(Clone, Copy, Debug, PartialEq, Eq, PartialOrd, Ord, Hash)]
#[non_exhaustive]
pub enum Bound {
    /// Places 1 and 2: an old note's key or position.
    OldNote(Pair),
    /// Place 3.
    Phi,
}

/// A lent buffer that has one right length.
#[derive(Clone, Copy, Debug, PartialEq, Eq, PartialOrd, Ord, Hash)]
#[non_exhaustive]
pub enum Buffer {
    /// Place 1.
    Ledger,
    /// Place 2.
    Root,
    /// Place 3.
    Report,
    /// Place 4.
    Tally,
    /// Place 5.
    Pull,
    /// Place 6.
    Digest,
}

/// A row of the nullifier table, counted from 0.
#[derive(Clone, Copy, Debug, PartialEq, Eq, PartialOrd, Ord, Hash)]
pub struct TableRow(u16);

impl TableRow {
    /// The row of this number.
    pub const fn new(number: u16) -> TableRow {
        TableRow(number)
    }

    /// Its number: the row's bytes begin at `ROW_BYTES` times it in the table.
    pub fn index(self) -> usize {
        usize::from(self.0)
    }
}

/// Why something was refused: a variant for each number, with its place, and
/// with its row where it has one.
#[derive(Clone, Copy, Debug, PartialEq, Eq, PartialOrd, Ord, Hash)]
#[non_exhaustive]
pub enum Refusal {
    /// 1: of a case, which is of neither [`Edition`](crate::Edition); of a draft,
    /// which is of neither, or whose buffer is not as long; of a fresh ledger, whose
    /// roll has no row.
    WrongLength,
    /// 2.
    LedgerDamaged,
    /// 3: in the table, of a case; in the roll, of closing a block.
    NoFreeRow,
    /// 4.
    BothPublicValues,
    /// 5: the first enters the pool, the second leaves it.
    PublicValueTooHigh(Pair),
    /// 6.
    AnchorUnknown,
    /// 7.
    NullifiersEqual,
    /// 8: which nullifier, and the row in which it stands in the table, as the
    /// table was when the case met it.
    AlreadySpent(Pair, TableRow),
    /// 9.
    OutOfRange(Bound),
    /// 10.
    PathWrong(Pair),
    /// 11.
    NotBalanced,
    /// 12.
    NullifierWrong(Pair),
    /// 13.
    AddressWrong(Pair),
    /// 14.
    TagWrong(Pair),
    /// 15.
    RhoWrong(Pair),
    /// 16.
    CommitmentWrong(Pair),
    /// 17: with this case it would be below zero or above all money.
    PoolOutOfBounds,
    /// 20.
    LayoutBroken,
    /// 21.
    GateBroken,
    /// 22.
    PullNotFinite,
    /// 23.
    PullOutside,
    /// 51.
    WrongBuffer(Buffer),
    /// 52.
    TallyFull,
    /// 53.
    NoSuchRow,
    /// 255: no answer was given. No call returns it; it stands in a report for
    /// the cases that a bag does not have, and in a day list for the rows that were
    /// not entered yet.
    NotGiven,
    /// 54: what was to be entered in the day list.
    NoAnswer,
    /// An answer that this crate has no name for: the library is of another
    /// version. It is kept as a refusal, since only 0 is a yes.
    Unknown(Unnamed),
}

/// The code of an answer that has no name here. It comes from
/// [`Refusal::from_code`] alone, so that it is never 0, and never that of a
/// refusal with a name.
#[derive(Clone, Copy, Debug, PartialEq, Eq, PartialOrd, Ord, Hash)]
pub struct Unnamed(u32);

impl Unnamed {
    /// The code, as the library gave it.
    pub fn code(self) -> u32 {
        self.0
    }
}

impl Refusal {
    /// The refusal of a code as the library returns it; `None` for 0, which is
    /// a yes.
    pub fn from_code(code: u32) -> Option<Refusal> {
        if code == 0 {
            return None;
        }
        let [number, place, row @ ..] = code.to_le_bytes();
        let named = known(number, place, u16::from_le_bytes(row));
        Some(named.unwrap_or(Refusal::Unknown(Unnamed(code))))
    }

    /// The answer of a code as the library returns it.
    pub fn answer(code: u32) -> Answer {
        match Refusal::from_code(code) {
            None => Ok(()),
            Some(refusal) => Err(refusal),
        }
    }

    /// The code of an answer, as the library takes it.
    pub fn code_of(answer: Answer) -> u32 {
        match answer {
            Ok(()) => 0,
            Err(Refusal::Unknown(unnamed)) => unnamed.code(),
            Err(refusal) => {
                let row = refusal.row().map_or(0, |row| row.0);
                u32::from(refusal.number()) | u32::from(refusal.place()) << 8 | u32::from(row) << 16
            }
        }
    }

    /// The number, as in docs/REFUSALS.md.
    pub fn number(self) -> u8 {
        match self {
            Refusal::WrongLength => 1,
            Refusal::LedgerDamaged => 2,
            Refusal::NoFreeRow => 3,
            Refusal::BothPublicValues => 4,
            Refusal::PublicValueTooHigh(_) => 5,
            Refusal::AnchorUnknown => 6,
            Refusal::NullifiersEqual => 7,
            Refusal::AlreadySpent(..) => 8,
            Refusal::OutOfRange(_) => 9,
            Refusal::PathWrong(_) => 10,
            Refusal::NotBalanced => 11,
            Refusal::NullifierWrong(_) => 12,
            Refusal::AddressWrong(_) => 13,
            Refusal::TagWrong(_) => 14,
            Refusal::RhoWrong(_) => 15,
            Refusal::CommitmentWrong(_) => 16,
            Refusal::PoolOutOfBounds => 17,
            Refusal::LayoutBroken => 20,
            Refusal::GateBroken => 21,
            Refusal::PullNotFinite => 22,
            Refusal::PullOutside => 23,
            Refusal::WrongBuffer(_) => 51,
            Refusal::TallyFull => 52,
            Refusal::NoSuchRow => 53,
            Refusal::NoAnswer => 54,
            Refusal::NotGiven => 255,
            Refusal::Unknown(unnamed) => unnamed.code() as u8,
        }
    }

    /// The place, as in docs/REFUSALS.md; 0 where the number says all.
    pub fn place(self) -> u8 {
        match self {
            Refusal::PublicValueTooHigh(which)
            | Refusal::AlreadySpent(which, _)
            | Refusal::OutOfRange(Bound::OldNote(which))
            | Refusal::PathWrong(which)
            | Refusal::NullifierWrong(which)
            | Refusal::AddressWrong(which)
            | Refusal::TagWrong(which)
            | Refusal::RhoWrong(which)
            | Refusal::CommitmentWrong(which) => which.place(),
            Refusal::OutOfRange(Bound::Phi) => 3,
            Refusal::WrongBuffer(buffer) => buffer.place(),
            Refusal::Unknown(unnamed) => (unnamed.code() >> 8) as u8,
            _ => 0,
        }
    }

    /// The row of the nullifier table, of a nullifier that is spent.
    pub fn row(self) -> Option<TableRow> {
        match self {
            Refusal::AlreadySpent(_, row) => Some(row),
            _ => None,
        }
    }
}

/// The refusal of this number, place and row, if there is one. Only 8 has a row.
fn known(number: u8, place: u8, row: u16) -> Option<Refusal> {
    match (number, place, row) {
        (8, _, _) => Some(Refusal::AlreadySpent(Pair::at(place)?, TableRow(row))),
        (_, 0, 0) => without_place(number),
        (_, _, 0) => with_place(number, place),
        _ => None,
    }
}

fn without_place(number: u8) -> Option<Refusal> {
    Some(match number {
        1 => Refusal::WrongLength,
        2 => Refusal::LedgerDamaged,
        3 => Refusal::NoFreeRow,
        4 => Refusal::BothPublicValues,
        6 => Refusal::AnchorUnknown,
        7 => Refusal::NullifiersEqual,
        11 => Refusal::NotBalanced,
        17 => Refusal::PoolOutOfBounds,
        20 => Refusal::LayoutBroken,
        21 => Refusal::GateBroken,
        22 => Refusal::PullNotFinite,
        23 => Refusal::PullOutside,
        52 => Refusal::TallyFull,
        53 => Refusal::NoSuchRow,
        54 => Refusal::NoAnswer,
        255 => Refusal::NotGiven,
        _ => return None,
    })
}

fn with_place(number: u8, place: u8) -> Option<Refusal> {
    match (number, place) {
        (9, 3) => return Some(Refusal::OutOfRange(Bound::Phi)),
        (51, _) => return Buffer::at(place).map(Refusal::WrongBuffer),
        _ => (),
    }
    let which = Pair::at(place)?;
    Some(match number {
        5 => Refusal::PublicValueTooHigh(which),
        9 => Refusal::OutOfRange(Bound::OldNote(which)),
        10 => Refusal::PathWrong(which),
        12 => Refusal::NullifierWrong(which),
        13 => Refusal::AddressWrong(which),
        14 => Refusal::TagWrong(which),
        15 => Refusal::RhoWrong(which),
        16 => Refusal::CommitmentWrong(which),
        _ => return None,
    })
}

impl Pair {
    fn at(place: u8) -> Option<Pair> {
        match place {
            1 => Some(Pair::First),
            2 => Some(Pair::Second),
            _ => None,
        }
    }

    fn place(self) -> u8 {
        match self {
            Pair::First => 1,
            Pair::Second => 2,
        }
    }
}

impl Buffer {
    fn at(place: u8) -> Option<Buffer> {
        match place {
            1 => Some(Buffer::Ledger),
            2 => Some(Buffer::Root),
            3 => Some(Buffer::Report),
            4 => Some(Buffer::Tally),
            5 => Some(Buffer::Pull),
            6 => Some(Buffer::Digest),
            _ => None,
        }
    }

    fn place(self) -> u8 {
        match self {
            Buffer::Ledger => 1,
            Buffer::Root => 2,
            Buffer::Report => 3,
            Buffer::Tally => 4,
            Buffer::Pull => 5,
            Buffer::Digest => 6,
        }
    }
}

/// Number, place and words of each refusal, as docs/REFUSALS.md has them. Those
/// of 1 and 3 also say what they mean where no case was judged.
#[rustfmt::skip]
const WORDS: [(u8, u8, &str); 41] = [
    (1, 0, "the case is neither 4,210 nor 4,106 bytes long (writing a case: or the buffer is not as long as the draft; opening: the roll has no row)"),
    (2, 0, "the ledger is damaged"),
    (3, 0, "fewer than two nullifier rows are free (closing: no roll row is)"),
    (4, 0, "both public values are nonzero"),
    (5, 1, "the public value that enters the pool is more than all money"),
    (5, 2, "the public value that leaves the pool is more than all money"),
    (6, 0, "the anchor is not on the roll"),
    (7, 0, "the case's two nullifiers are equal"),
    (8, 1, "the first nullifier is already spent"),
    (8, 2, "the second nullifier is already spent"),
    (9, 1, "old note 1 has a key of more than 252 bits or a position outside the tree"),
    (9, 2, "old note 2 has a key of more than 252 bits or a position outside the tree"),
    (9, 3, "phi has more than 252 bits"),
    (10, 1, "old note 1 has a value, and its path does not lead to the anchor"),
    (10, 2, "old note 2 has a value, and its path does not lead to the anchor"),
    (11, 0, "what goes in and what comes out differ, or are above 2^64 - 1"),
    (12, 1, "the first nullifier is not that of old note 1"),
    (12, 2, "the second nullifier is not that of old note 2"),
    (13, 1, "old note 1's address is not that of its key"),
    (13, 2, "old note 2's address is not that of its key"),
    (14, 1, "the first tag is wrong"),
    (14, 2, "the second tag is wrong"),
    (15, 1, "new note 1's rho is wrong"),
    (15, 2, "new note 2's rho is wrong"),
    (16, 1, "the first commitment is not that of new note 1"),
    (16, 2, "the second commitment is not that of new note 2"),
    (17, 0, "with this case the pool would be below zero or above all money"),
    (20, 0, "the bag's layout is broken"),
    (21, 0, "a limit of the gate is no finite number, or low is above high"),
    (22, 0, "the pull is no finite number"),
    (23, 0, "the pull is outside the gate"),
    (51, 1, "the ledger's buffer is not 988 bytes long"),
    (51, 2, "the root's buffer is not 32 bytes long"),
    (51, 3, "the report's buffer is not 32 bytes long"),
    (51, 4, "the tally's buffer is not 12 bytes long"),
    (51, 5, "the pull's buffer is not 8 bytes long"),
    (51, 6, "the digest's buffer is not 32 bytes long"),
    (52, 0, "the tally is full: seen, or the count that would be raised, is at its most"),
    (53, 0, "the day list has no such row"),
    (54, 0, "what is to be entered in the day list is no answer"),
    (255, 0, "no answer was given"),
];

/// The words of a number and a place.
pub(crate) fn write_words(out: &mut fmt::Formatter<'_>, number: u8, place: u8) -> fmt::Result {
    match WORDS.iter().find(|row| (row.0, row.1) == (number, place)) {
        Some((_, _, words)) => out.write_str(words),
        None => write!(out, "refused with {number} {place}"),
    }
}

impl fmt::Display for Refusal {
    fn fmt(&self, out: &mut fmt::Formatter<'_>) -> fmt::Result {
        if let Refusal::Unknown(Unnamed(code)) = self {
            return write!(out, "an answer without a name, {code:#x}");
        }
        write_words(out, self.number(), self.place())?;
        match self.row() {
            Some(TableRow(row)) => write!(out, ": it stands in row {row} of the table"),
            None => Ok(()),
        }
    }
}

impl Error for Refusal {}
