//! The case file in its two editions, and what stands where.

use std::fmt;

use crate::bytes::{Bytes32, Reader};
use crate::hashes;
use crate::tree::{Path, DEPTH};

/// An edition of the description. The two differ in the length of the proof, and
/// so in where the fields behind it stand.
#[derive(Clone, Copy, Debug, PartialEq, Eq, PartialOrd, Ord)]
pub enum Edition {
    /// A proof of 296 bytes.
    First,
    /// A proof of 192 bytes.
    Second,
}

impl Edition {
    /// Both.
    pub const ALL: [Edition; 2] = [Edition::First, Edition::Second];

    /// The length of a case file.
    pub const fn case_bytes(self) -> usize {
        match self {
            Edition::First => 4_210,
            Edition::Second => 4_106,
        }
    }

    /// The length of a proof.
    pub const fn proof_bytes(self) -> usize {
        match self {
            Edition::First => 296,
            Edition::Second => 192,
        }
    }

    /// The edition of a case file of this length. Nothing else says it.
    pub fn of_length(length: usize) -> Option<Edition> {
        let mut editions = Edition::ALL.into_iter();
        editions.find(|edition| edition.case_bytes() == length)
    }

    /// The other one.
    pub fn other(self) -> Edition {
        match self {
            Edition::First => Edition::Second,
            Edition::Second => Edition::First,
        }
    }
}

impl fmt::Display for Edition {
    fn fmt(&self, out: &mut fmt::Formatter<'_>) -> fmt::Result {
        out.write_str(match self {
            Edition::First => "first",
            Edition::Second => "second",
        })
    }
}

/// A proof of either edition.
#[derive(Clone, Debug, PartialEq, Eq)]
pub enum Proof {
    /// One of the first edition.
    First([u8; Edition::First.proof_bytes()]),
    /// One of the second edition.
    Second([u8; Edition::Second.proof_bytes()]),
}

impl Proof {
    /// A proof of zero bytes.
    pub fn zeroed(edition: Edition) -> Proof {
        match edition {
            Edition::First => Proof::First([0; Edition::First.proof_bytes()]),
            Edition::Second => Proof::Second([0; Edition::Second.proof_bytes()]),
        }
    }

    fn read(reader: &mut Reader, edition: Edition) -> Option<Proof> {
        Some(match edition {
            Edition::First => Proof::First(reader.take()?),
            Edition::Second => Proof::Second(reader.take()?),
        })
    }

    /// The edition that it is of.
    pub fn edition(&self) -> Edition {
        match self {
            Proof::First(_) => Edition::First,
            Proof::Second(_) => Edition::Second,
        }
    }

    /// Its bytes.
    pub fn bytes(&self) -> &[u8] {
        match self {
            Proof::First(bytes) => bytes,
            Proof::Second(bytes) => bytes,
        }
    }

    /// Its bytes, to be changed.
    pub fn bytes_mut(&mut self) -> &mut [u8] {
        match self {
            Proof::First(bytes) => bytes,
            Proof::Second(bytes) => bytes,
        }
    }
}

/// The most that a public value may be: 2,100,000,000,000,000.
pub const MAX_MONEY: Amount = Amount(2_100_000_000_000_000);

/// The most that either side of the balance may come to: 2^64 - 1.
pub const MAX_SUM: u128 = 18_446_744_073_709_551_615;

/// Zatoshi. Amounts are only ever added as whole numbers.
#[derive(Clone, Copy, Debug, PartialEq, Eq, PartialOrd, Ord)]
pub struct Amount(pub u64);

impl Amount {
    /// Nothing.
    pub const ZERO: Amount = Amount(0);

    /// The amount as a number that does not wrap when a few are added.
    pub fn whole(self) -> u128 {
        u128::from(self.0)
    }
}

/// A leaf's place in the tree, counted from 0.
#[derive(Clone, Copy, Debug, PartialEq, Eq, PartialOrd, Ord)]
pub struct Position(pub u32);

impl Position {
    /// Whether the tree has such a leaf.
    pub fn is_in_tree(self) -> bool {
        self.0 < crate::tree::FULL
    }

    /// Whether the node at this level is a right child.
    pub fn is_right_child(self, level: usize) -> bool {
        (self.0 >> level) & 1 == 1
    }
}

/// An old note, with its key and its way to the anchor.
#[derive(Clone, Debug, PartialEq, Eq)]
pub struct OldNote {
    /// The spending key; its top four bits should be zero.
    pub a_sk: Bytes32,
    /// The address.
    pub a_pk: Bytes32,
    /// The value, any 64-bit number.
    pub value: Amount,
    /// rho.
    pub rho: Bytes32,
    /// The commitment's trapdoor.
    pub r: Bytes32,
    /// The leaf's position.
    pub position: Position,
    /// The siblings, leaf level first.
    pub path: Path,
}

impl OldNote {
    /// The note's commitment, from the fields as they stand.
    pub fn commitment(&self) -> Bytes32 {
        hashes::commitment(&self.a_pk, self.value.0, &self.rho, &self.r)
    }
}

/// A new note.
#[derive(Clone, Debug, PartialEq, Eq)]
pub struct NewNote {
    /// The recipient's address.
    pub a_pk: Bytes32,
    /// The value, any 64-bit number.
    pub value: Amount,
    /// rho.
    pub rho: Bytes32,
    /// The commitment's trapdoor.
    pub r: Bytes32,
}

impl NewNote {
    /// The note's commitment, from the fields as they stand.
    pub fn commitment(&self) -> Bytes32 {
        hashes::commitment(&self.a_pk, self.value.0, &self.rho, &self.r)
    }
}

/// A case: the description, the transaction key and the witness.
#[derive(Clone, Debug, PartialEq, Eq)]
pub struct Case {
    /// The public value that goes into the notes.
    pub vpub_old: Amount,
    /// The public value that comes out of the notes.
    pub vpub_new: Amount,
    /// The root that the old notes' paths lead to.
    pub anchor: Bytes32,
    /// The old notes' nullifiers.
    pub nullifiers: [Bytes32; 2],
    /// The new notes' commitments.
    pub commitments: [Bytes32; 2],
    /// Carried, never checked.
    pub ephemeral_key: Bytes32,
    /// The seed that goes into hSig.
    pub seed: Bytes32,
    /// The tags h_1 and h_2.
    pub tags: [Bytes32; 2],
    /// Carried, never checked. It says the case's edition.
    pub proof: Proof,
    /// Carried, never checked.
    pub ciphertexts: [[u8; 601]; 2],
    /// The transaction's public key.
    pub transaction_key: Bytes32,
    /// The old notes.
    pub old: [OldNote; 2],
    /// The new notes.
    pub new: [NewNote; 2],
    /// The key of the new rho values; its top four bits should be zero.
    pub phi: Bytes32,
}

impl Case {
    /// Reads a case; only its length can be wrong.
    pub fn read(file: &[u8]) -> Option<Case> {
        let edition = Edition::of_length(file.len())?;
        let mut reader = Reader::new(file);
        let case = read_case(&mut reader, edition)?;
        reader.is_done().then_some(case)
    }

    /// The edition that the case is in.
    pub fn edition(&self) -> Edition {
        self.proof.edition()
    }

    /// The case with another proof, and so perhaps in the other edition. All else
    /// is as it was.
    pub fn with_proof(self, proof: Proof) -> Case {
        Case { proof, ..self }
    }

    /// The case file.
    pub fn to_bytes(&self) -> Vec<u8> {
        let mut file = Vec::with_capacity(self.edition().case_bytes());
        self.write_description(&mut file);
        file.extend(self.transaction_key);
        self.old.iter().for_each(|note| write_old(&mut file, note));
        self.new.iter().for_each(|note| write_new(&mut file, note));
        file.extend(self.phi);
        file
    }

    fn write_description(&self, file: &mut Vec<u8>) {
        file.extend(self.vpub_old.0.to_le_bytes());
        file.extend(self.vpub_new.0.to_le_bytes());
        file.extend(self.anchor);
        file.extend(self.nullifiers.as_flattened());
        file.extend(self.commitments.as_flattened());
        file.extend(self.ephemeral_key);
        file.extend(self.seed);
        file.extend(self.tags.as_flattened());
        file.extend(self.proof.bytes());
        file.extend(self.ciphertexts.as_flattened());
    }

    /// hSig of this case.
    pub fn h_sig(&self) -> Bytes32 {
        hashes::h_sig(&self.seed, &self.nullifiers, &self.transaction_key)
    }

    /// vpub_old plus the old values.
    pub fn value_in(&self) -> u128 {
        self.vpub_old.whole() + self.old[0].value.whole() + self.old[1].value.whole()
    }

    /// What acceptance would change the pool by: vpub_old less vpub_new.
    pub fn asked_of_pool(&self) -> i128 {
        i128::from(self.vpub_old.0) - i128::from(self.vpub_new.0)
    }

    /// vpub_new plus the new values.
    pub fn value_out(&self) -> u128 {
        self.vpub_new.whole() + self.new[0].value.whole() + self.new[1].value.whole()
    }
}

/// The fields stand in the file in the order of the struct.
fn read_case(reader: &mut Reader, edition: Edition) -> Option<Case> {
    Some(Case {
        vpub_old: Amount(reader.u64()?),
        vpub_new: Amount(reader.u64()?),
        anchor: reader.take()?,
        nullifiers: [reader.take()?, reader.take()?],
        commitments: [reader.take()?, reader.take()?],
        ephemeral_key: reader.take()?,
        seed: reader.take()?,
        tags: [reader.take()?, reader.take()?],
        proof: Proof::read(reader, edition)?,
        ciphertexts: [reader.take()?, reader.take()?],
        transaction_key: reader.take()?,
        old: [read_old(reader)?, read_old(reader)?],
        new: [read_new(reader)?, read_new(reader)?],
        phi: reader.take()?,
    })
}

fn read_old(reader: &mut Reader) -> Option<OldNote> {
    Some(OldNote {
        a_sk: reader.take()?,
        a_pk: reader.take()?,
        value: Amount(reader.u64()?),
        rho: reader.take()?,
        r: reader.take()?,
        position: Position(reader.u32()?),
        path: read_path(reader)?,
    })
}

fn read_path(reader: &mut Reader) -> Option<Path> {
    let mut path = [[0; 32]; DEPTH];
    for node in &mut path {
        *node = reader.take()?;
    }
    Some(path)
}

fn read_new(reader: &mut Reader) -> Option<NewNote> {
    Some(NewNote {
        a_pk: reader.take()?,
        value: Amount(reader.u64()?),
        rho: reader.take()?,
        r: reader.take()?,
    })
}

fn write_old(file: &mut Vec<u8>, note: &OldNote) {
    file.extend(note.a_sk);
    file.extend(note.a_pk);
    file.extend(note.value.0.to_le_bytes());
    file.extend(note.rho);
    file.extend(note.r);
    file.extend(note.position.0.to_le_bytes());
    file.extend(note.path.as_flattened());
}

fn write_new(file: &mut Vec<u8>, note: &NewNote) {
    file.extend(note.a_pk);
    file.extend(note.value.0.to_le_bytes());
    file.extend(note.rho);
    file.extend(note.r);
}
