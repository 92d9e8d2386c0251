//! The shift's books: the tally and the day list.

use crate::calls;
use crate::refusal::{Answer, Refusal};
#[cfg(feature = "alloc")]
pub use day_list::{DayAnswer, DayList, DayRow};

const TALLY_BYTES: usize = 12;

/// How many answers were seen, and how many of them passed and were refused.
#[derive(Clone, Copy, Debug, Default, PartialEq, Eq)]
pub struct Tally {
    bytes: [u8; TALLY_BYTES],
}

impl Tally {
    /// A tally of nothing.
    pub fn new() -> Tally {
        Tally::default()
    }

    /// A stored tally.
    pub fn from_bytes(bytes: [u8; TALLY_BYTES]) -> Tally {
        Tally { bytes }
    }

    /// The tally, to be stored.
    pub fn as_bytes(&self) -> &[u8; TALLY_BYTES] {
        &self.bytes
    }

    /// Counts an answer. Refused where a count is full.
    pub fn count(&mut self, answer: Answer) -> Answer {
        Refusal::answer(calls::tally(&mut self.bytes, Refusal::code_of(answer)))
    }

    /// Answers counted.
    pub fn seen(&self) -> u32 {
        self.number(0)
    }

    /// Those of them that were a yes.
    pub fn passed(&self) -> u32 {
        self.number(4)
    }

    /// Those of them that were a refusal.
    pub fn refused(&self) -> u32 {
        self.number(8)
    }

    fn number(&self, at: usize) -> u32 {
        u32::from_le_bytes(core::array::from_fn(|i| self.bytes[at + i]))
    }
}

#[cfg(feature = "alloc")]
mod day_list {
    use alloc::vec;
    use alloc::vec::Vec;
    use core::fmt;

    use crate::calls;
    use crate::refusal::{write_words, Answer, Refusal};

    const DAY_ROW_BYTES: usize = 6;
    const NOT_GIVEN: u8 = 255;

    /// A row of the day list.
    #[derive(Clone, Copy, Debug, PartialEq, Eq)]
    pub struct DayRow {
        /// The number of the seal.
        pub seal: u32,
        /// What was answered.
        pub answer: DayAnswer,
    }

    /// What the day list keeps of an answer: its number and its place. It is no
    /// [`Answer`], since the list does not keep the row of a spent nullifier,
    /// and any row that was put in its place would be a wrong one.
    #[derive(Clone, Copy, Debug, PartialEq, Eq)]
    pub enum DayAnswer {
        /// The row was not entered yet.
        NotGiven,
        /// It was a yes.
        Passed,
        /// It was a refusal.
        Refused {
            /// The number, as in docs/REFUSALS.md.
            number: u8,
            /// The place, as in docs/REFUSALS.md.
            place: u8,
        },
    }

    impl DayAnswer {
        fn read(number: u8, place: u8) -> DayAnswer {
            match (number, place) {
                (NOT_GIVEN, _) => DayAnswer::NotGiven,
                (0, 0) => DayAnswer::Passed,
                (number, place) => DayAnswer::Refused { number, place },
            }
        }
    }

    /// What the list keeps of it.
    impl From<Answer> for DayAnswer {
        fn from(answer: Answer) -> DayAnswer {
            match answer {
                Ok(()) => DayAnswer::Passed,
                Err(refusal) => DayAnswer::read(refusal.number(), refusal.place()),
            }
        }
    }

    impl fmt::Display for DayAnswer {
        fn fmt(&self, out: &mut fmt::Formatter<'_>) -> fmt::Result {
            match *self {
                DayAnswer::NotGiven => write_words(out, NOT_GIVEN, 0),
                DayAnswer::Passed => out.write_str("accepted"),
                DayAnswer::Refused { number, place } => write_words(out, number, place),
            }
        }
    }

    /// The day list, with as many rows as it was made with.
    #[derive(Clone, PartialEq, Eq)]
    pub struct DayList {
        bytes: Vec<u8>,
    }

    impl DayList {
        /// A list of this many rows, none of them entered: each says
        /// [`DayAnswer::NotGiven`].
        pub fn with_rows(rows: u32) -> DayList {
            DayList {
                bytes: vec![NOT_GIVEN; rows as usize * DAY_ROW_BYTES],
            }
        }

        /// A stored list. Bytes after its last whole row are never written.
        pub fn from_bytes(bytes: Vec<u8>) -> DayList {
            DayList { bytes }
        }

        /// The list, to be stored.
        pub fn as_bytes(&self) -> &[u8] {
            &self.bytes
        }

        /// How many rows it has.
        pub fn rows(&self) -> usize {
            self.bytes.len() / DAY_ROW_BYTES
        }

        /// Writes a row, counted from 0: the seal's number, and of the answer its
        /// number and its place. Refused where there is no such row, and where an
        /// answer without a name has a row and is no 8, or would be read as a pass
        /// there.
        pub fn enter(&mut self, row: usize, seal: u32, answer: Answer) -> Answer {
            Refusal::answer(calls::day(
                &mut self.bytes,
                row,
                seal,
                Refusal::code_of(answer),
            ))
        }

        /// A row, if there is one.
        pub fn row(&self, row: usize) -> Option<DayRow> {
            let bytes = self.bytes.chunks_exact(DAY_ROW_BYTES).nth(row)?;
            Some(DayRow {
                seal: u32::from_le_bytes([bytes[0], bytes[1], bytes[2], bytes[3]]),
                answer: DayAnswer::read(bytes[4], bytes[5]),
            })
        }
    }

    /// How many rows there are, and none of them.
    impl fmt::Debug for DayList {
        fn fmt(&self, out: &mut fmt::Formatter<'_>) -> fmt::Result {
            out.debug_struct("DayList")
                .field("rows", &self.rows())
                .finish_non_exhaustive()
        }
    }
}
