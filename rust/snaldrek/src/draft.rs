//! A case written from what its holder chooses.

#[cfg(feature = "alloc")]
use alloc::vec;
#[cfg(feature = "alloc")]
use alloc::vec::Vec;
use core::fmt;

use crate::calls;
use crate::edition::{Edition, MAX_CASE_BYTES};
use crate::refusal::{Answer, Refusal};

/// The proof that a case carries. It tells the case's edition, and is never
/// checked.
#[derive(Clone, PartialEq, Eq)]
pub enum Proof {
    /// One of the first edition.
    First([u8; Edition::First.proof_bytes()]),
    /// One of the second edition.
    Second([u8; Edition::Second.proof_bytes()]),
}

impl Proof {
    /// The edition that it is of.
    pub fn edition(&self) -> Edition {
        match self {
            Proof::First(_) => Edition::First,
            Proof::Second(_) => Edition::Second,
        }
    }

    /// Its bytes.
    pub fn as_bytes(&self) -> &[u8] {
        match self {
            Proof::First(bytes) => bytes,
            Proof::Second(bytes) => bytes,
        }
    }
}

/// A note that is spent, and where it stands in the tree.
#[derive(Clone, PartialEq, Eq)]
pub struct OldNote {
    /// a_sk, of 252 bits: the top four of its first byte are zero.
    pub key: [u8; 32],
    /// In zatoshi.
    pub value: u64,
    /// rho.
    pub rho: [u8; 32],
    /// r.
    pub r: [u8; 32],
    /// The number of its leaf, below 2^29.
    pub position: u32,
    /// The nodes beside the way from the leaf to the anchor, leaf level first.
    pub path: [[u8; 32]; 29],
}

impl OldNote {
    /// A note of value 0, for a case that spends less than two. It need not stand
    /// in any tree; but two of one case may not have both key and rho in common.
    pub fn without_value(key: [u8; 32], rho: [u8; 32]) -> OldNote {
        OldNote {
            key,
            value: 0,
            rho,
            r: [0; 32],
            position: 0,
            path: [[0; 32]; 29],
        }
    }
}

/// A note that is made.
#[derive(Clone, PartialEq, Eq)]
pub struct NewNote {
    /// a_pk of whoever gets it.
    pub address: [u8; 32],
    /// In zatoshi.
    pub value: u64,
    /// r.
    pub r: [u8; 32],
}

/// All that the holder of a case chooses. The rest is worked out when it is
/// written: nullifiers, tags, commitments, the addresses of the old notes and rho
/// of the new ones.
///
/// ```
/// use snaldrek::{Draft, Ledger, NewNote, OldNote, Proof, Refusal};
///
/// let mut ledger = Ledger::open(2, 1)?;
/// let draft = Draft {
///     vpub_old: 10_000,
///     vpub_new: 0,
///     anchor: ledger.root(),
///     ephemeral_key: [0; 32],
///     seed: [1; 32],
///     proof: Proof::Second([0; 192]),
///     ciphertexts: [[0; 601]; 2],
///     transaction_key: [2; 32],
///     old: [3, 4].map(|byte| OldNote::without_value([byte; 32], [byte; 32])),
///     new: [10_000, 0].map(|value| NewNote { address: [5; 32], value, r: [6; 32] }),
///     phi: [7; 32],
/// };
/// let case = draft.write()?;
/// assert_eq!(ledger.judge(&case), Ok(()));
/// assert_eq!(ledger.pool(), 10_000);
/// # Ok::<(), Refusal>(())
/// ```
#[derive(Clone, PartialEq, Eq)]
pub struct Draft {
    /// What enters the pool, in zatoshi.
    pub vpub_old: u64,
    /// What leaves it, in zatoshi. One of the two is 0.
    pub vpub_new: u64,
    /// The root that the old notes' paths lead to.
    pub anchor: [u8; 32],
    /// Carried, and never checked.
    pub ephemeral_key: [u8; 32],
    /// The seed of hSig.
    pub seed: [u8; 32],
    /// Carried, and never checked. The case is of its edition.
    pub proof: Proof,
    /// Carried, and never checked.
    pub ciphertexts: [[u8; 601]; 2],
    /// The transaction's key, which hSig is made of too.
    pub transaction_key: [u8; 32],
    /// The notes that are spent.
    pub old: [OldNote; 2],
    /// The notes that are made.
    pub new: [NewNote; 2],
    /// Of 252 bits: the top four of its first byte are zero.
    pub phi: [u8; 32],
}

impl Draft {
    /// The case, of the proof's edition. Refused with what a case is refused with
    /// that no ledger decides: 4, 5, 7, 9, 10 and 11.
    #[cfg(feature = "alloc")]
    pub fn write(&self) -> Result<Vec<u8>, Refusal> {
        let mut case = vec![0; self.proof.edition().case_bytes()];
        self.write_into(&mut case)?;
        Ok(case)
    }

    /// The case, in a buffer of the length that the proof's edition has. Refused as
    /// of the wrong length where it has another. A refusal changes no byte.
    ///
    /// It takes some 4 KiB of stack, for the draft as a file, beside what every call
    /// may take.
    pub fn write_into(&self, buffer: &mut [u8]) -> Answer {
        let mut file = File::new();
        self.lay_out(&mut file);
        Refusal::answer(calls::write_case(file.bytes(), buffer))
    }

    /// All fields in the order of the case file. Those that are worked out are
    /// zeros, and not read.
    fn lay_out(&self, file: &mut File) {
        file.put(&self.vpub_old.to_le_bytes());
        file.put(&self.vpub_new.to_le_bytes());
        file.put(&self.anchor);
        file.put(&NULLIFIERS_AND_COMMITMENTS);
        file.put(&self.ephemeral_key);
        file.put(&self.seed);
        file.put(&TAGS);
        file.put(self.proof.as_bytes());
        file.put(self.ciphertexts.as_flattened());
        file.put(&self.transaction_key);
        for note in &self.old {
            note.lay_out(file);
        }
        for note in &self.new {
            note.lay_out(file);
        }
        file.put(&self.phi);
    }
}

impl OldNote {
    fn lay_out(&self, file: &mut File) {
        file.put(&self.key);
        file.put(&ADDRESS);
        file.put(&self.value.to_le_bytes());
        file.put(&self.rho);
        file.put(&self.r);
        file.put(&self.position.to_le_bytes());
        file.put(self.path.as_flattened());
    }
}

impl NewNote {
    fn lay_out(&self, file: &mut File) {
        file.put(&self.address);
        file.put(&self.value.to_le_bytes());
        file.put(&RHO);
        file.put(&self.r);
    }
}

// What is worked out.
const NULLIFIERS_AND_COMMITMENTS: [u8; 128] = [0; 128];
const TAGS: [u8; 64] = [0; 64];
const ADDRESS: [u8; 32] = [0; 32];
const RHO: [u8; 32] = [0; 32];

/// A file that grows part by part, with room for either edition.
struct File {
    room: [u8; MAX_CASE_BYTES],
    length: usize,
}

impl File {
    fn new() -> File {
        File {
            room: [0; MAX_CASE_BYTES],
            length: 0,
        }
    }

    /// The parts of a draft are arrays, which together are as long as its edition's
    /// file.
    fn put(&mut self, part: &[u8]) {
        let end = self.length + part.len();
        self.room[self.length..end].copy_from_slice(part);
        self.length = end;
    }

    fn bytes(&self) -> &[u8] {
        &self.room[..self.length]
    }
}

/// Its edition, and none of its bytes.
impl fmt::Debug for Proof {
    fn fmt(&self, out: &mut fmt::Formatter<'_>) -> fmt::Result {
        out.debug_tuple("Proof").field(&self.edition()).finish()
    }
}

/// Its value and position, and nothing that spends it.
impl fmt::Debug for OldNote {
    fn fmt(&self, out: &mut fmt::Formatter<'_>) -> fmt::Result {
        out.debug_struct("OldNote")
            .field("value", &self.value)
            .field("position", &self.position)
            .finish_non_exhaustive()
    }
}

/// Its value, and nothing that tells whose it is.
impl fmt::Debug for NewNote {
    fn fmt(&self, out: &mut fmt::Formatter<'_>) -> fmt::Result {
        out.debug_struct("NewNote")
            .field("value", &self.value)
            .finish_non_exhaustive()
    }
}

/// Amounts, positions and the edition, and none of its keys.
impl fmt::Debug for Draft {
    fn fmt(&self, out: &mut fmt::Formatter<'_>) -> fmt::Result {
        out.debug_struct("Draft")
            .field("vpub_old", &self.vpub_old)
            .field("vpub_new", &self.vpub_new)
            .field("proof", &self.proof)
            .field("old", &self.old)
            .field("new", &self.new)
            .finish_non_exhaustive()
    }
}
