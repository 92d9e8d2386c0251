//! The number, the place and the row of an answer, and the lines that tell them.

use std::fmt;

/// The number of the refusal of a nullifier that is spent, the only one that
/// names a row.
pub const SPENT: u8 = 8;

/// A row of the nullifier table, counted from 0.
#[derive(Clone, Copy, Debug, PartialEq, Eq, PartialOrd, Ord, Hash)]
pub struct Row(pub u64);

impl Row {
    /// What stands in an answer that names no row.
    pub const NONE: Row = Row(0);
}

/// What a call answers: a number, the place it points at, and the row where
/// the named nullifier was found.
///
/// The order is that of document 01's table: by number, then by place.
#[derive(Clone, Copy, Debug, PartialEq, Eq, PartialOrd, Ord, Hash)]
pub struct Answer {
    /// 0 for a pass, otherwise the number of the refusal.
    pub number: u8,
    /// 0 where the table names no place.
    pub place: u8,
    /// With refusal 8 the row of the nullifier at that place, as the case met
    /// the table; 0 with every other number.
    pub row: Row,
}

impl Answer {
    /// The answer of everything that is accepted.
    pub const PASSED: Answer = Answer::new(0, 0);

    /// An answer of this number and place, without a row.
    pub const fn new(number: u8, place: u8) -> Answer {
        Answer {
            number,
            place,
            row: Row::NONE,
        }
    }

    /// The refusal of the nullifier at this place, which stands in this row.
    pub const fn spent(place: u8, row: Row) -> Answer {
        Answer {
            number: SPENT,
            place,
            row,
        }
    }

    /// Whether this is a pass.
    pub fn is_pass(self) -> bool {
        self == Answer::PASSED
    }

    /// Number and place alone, which is all that the order of two cases must
    /// leave: a case between may shift rows.
    pub fn without_row(self) -> Answer {
        Answer::new(self.number, self.place)
    }

    /// The row that this answer names, if it names one.
    pub fn named_row(self) -> Option<Row> {
        (self.number == SPENT).then_some(self.row)
    }

    /// The lines of a case with this answer: number and place, and behind a
    /// refusal as spent the row in a line of its own.
    pub fn case_lines(self) -> Vec<String> {
        let row = self.named_row().map(|row| format!("row {row}"));
        std::iter::once(self.case_line()).chain(row).collect()
    }

    /// The line of a case with this answer, as document 01 has it.
    pub fn case_line(self) -> String {
        format!("case {self}")
    }
}

impl fmt::Display for Row {
    fn fmt(&self, out: &mut fmt::Formatter<'_>) -> fmt::Result {
        write!(out, "{}", self.0)
    }
}

/// Number and place; the row is told apart from them.
impl fmt::Display for Answer {
    fn fmt(&self, out: &mut fmt::Formatter<'_>) -> fmt::Result {
        write!(out, "{} {}", self.number, self.place)
    }
}
