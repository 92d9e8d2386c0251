//! The editions of a case file.

/// The length of the longest case file: room for one of either edition.
pub const MAX_CASE_BYTES: usize = Edition::First.case_bytes();

/// The edition of a case file. The second has a shorter proof, and what stands
/// behind the proof starts so many bytes earlier; nothing else differs.
///
/// A file tells its edition by its length alone. Files of both editions may be
/// judged on one ledger and in one bag.
///
/// ```
/// use snaldrek::{Edition, MAX_CASE_BYTES};
///
/// let mut room = [0; MAX_CASE_BYTES];
/// let file = &mut room[..Edition::Second.case_bytes()];
/// assert_eq!(Edition::of_case(file), Some(Edition::Second));
/// assert_eq!(Edition::of_case(&file[1..]), None);
/// ```
#[derive(Clone, Copy, Debug, PartialEq, Eq, Hash)]
pub enum Edition {
    /// Of 4,210 bytes.
    First,
    /// Of 4,106 bytes, as later descriptions have it.
    Second,
}

impl Edition {
    /// The length of a case file.
    pub const fn case_bytes(self) -> usize {
        match self {
            Edition::First => 4_210,
            Edition::Second => 4_106,
        }
    }

    /// The length of the proof in it.
    pub const fn proof_bytes(self) -> usize {
        match self {
            Edition::First => 296,
            Edition::Second => 192,
        }
    }

    /// The edition of a case file, by its length. A file of no edition is
    /// refused as one of the [wrong length](crate::Refusal::WrongLength).
    pub fn of_case(file: &[u8]) -> Option<Edition> {
        let mut editions = [Edition::First, Edition::Second].into_iter();
        editions.find(|edition| edition.case_bytes() == file.len())
    }
}
