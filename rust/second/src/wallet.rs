//! Notes and the cases that spend and create them.

use crate::bytes::Bytes32;
use crate::case::{Amount, Case, Edition, NewNote, OldNote, Position, Proof, MAX_SUM};
use crate::hashes;
use crate::random::Random;
use crate::tree::{Path, FULL};

/// A note together with the key that means to spend it. In a stranger's
/// note the address is not that of the key.
#[derive(Clone, Debug, PartialEq, Eq)]
pub struct Note {
    /// The spending key.
    pub a_sk: Bytes32,
    /// The address in the note.
    pub a_pk: Bytes32,
    /// The value.
    pub value: Amount,
    /// rho.
    pub rho: Bytes32,
    /// The trapdoor.
    pub r: Bytes32,
}

impl Note {
    /// A note of this value, all else random.
    pub fn random(random: &mut Random, value: Amount) -> Note {
        let a_sk = random.key();
        Note {
            a_sk,
            a_pk: hashes::address(&a_sk),
            value,
            rho: random.bytes(),
            r: random.bytes(),
        }
    }

    /// The note's leaf.
    pub fn commitment(&self) -> Bytes32 {
        hashes::commitment(&self.a_pk, self.value.0, &self.rho, &self.r)
    }

    /// What spending the note discloses.
    pub fn nullifier(&self) -> Bytes32 {
        hashes::nullifier(&self.a_sk, &self.rho)
    }

    /// The note as a case's old note.
    pub fn at(&self, position: Position, path: Path) -> OldNote {
        OldNote {
            a_sk: self.a_sk,
            a_pk: self.a_pk,
            value: self.value,
            rho: self.rho,
            r: self.r,
            position,
            path,
        }
    }

    /// The note as an old note that is nowhere: a random path.
    pub fn nowhere(&self, random: &mut Random) -> OldNote {
        let position = Position(random.below(FULL as usize) as u32);
        self.at(position, std::array::from_fn(|_| random.bytes()))
    }
}

/// An old note of value zero that was never entered.
pub fn idle_note(random: &mut Random) -> OldNote {
    Note::random(random, Amount::ZERO).nowhere(random)
}

/// What a case is to do.
pub struct Plan {
    /// The public value that goes in.
    pub vpub_old: Amount,
    /// The public value that comes out.
    pub vpub_new: Amount,
    /// The anchor.
    pub anchor: Bytes32,
    /// The notes to spend.
    pub old: [OldNote; 2],
    /// The addresses and values of the notes to create.
    pub new: [(Bytes32, Amount); 2],
}

/// A random proof of this edition.
pub fn proof_of(random: &mut Random, edition: Edition) -> Proof {
    let mut proof = Proof::zeroed(edition);
    random.fill(proof.bytes_mut());
    proof
}

/// A random proof of either edition.
pub fn any_proof(random: &mut Random) -> Proof {
    let edition = *random.pick(&Edition::ALL);
    proof_of(random, edition)
}

/// The same case in this edition, with another proof.
pub fn in_edition(random: &mut Random, case: &Case, edition: Edition) -> Case {
    case.clone().with_proof(proof_of(random, edition))
}

/// The case of a plan, everything that can be worked out being right. Its edition
/// is as the dice say.
pub fn write_case(random: &mut Random, plan: Plan) -> Case {
    let mut case = Case {
        vpub_old: plan.vpub_old,
        vpub_new: plan.vpub_new,
        anchor: plan.anchor,
        nullifiers: [[0; 32]; 2],
        commitments: [[0; 32]; 2],
        ephemeral_key: random.bytes(),
        seed: random.bytes(),
        tags: [[0; 32]; 2],
        proof: any_proof(random),
        ciphertexts: [random.bytes(), random.bytes()],
        transaction_key: random.bytes(),
        old: plan.old,
        new: plan.new.map(|(a_pk, value)| NewNote {
            a_pk,
            value,
            rho: [0; 32],
            r: random.bytes(),
        }),
        phi: random.key(),
    };
    set_nullifiers(&mut case);
    case
}

/// Works out the nullifiers, and all that hangs on them.
pub fn set_nullifiers(case: &mut Case) {
    for which in 0..2 {
        let note = &case.old[which];
        case.nullifiers[which] = hashes::nullifier(&note.a_sk, &note.rho);
    }
    set_tags(case);
    set_new_rhos(case);
}

/// Works out the tags.
pub fn set_tags(case: &mut Case) {
    let h_sig = case.h_sig();
    for which in 0..2 {
        case.tags[which] = hashes::tag(which, &case.old[which].a_sk, &h_sig);
    }
}

/// Works out the new rho values, and the commitments that hang on them.
pub fn set_new_rhos(case: &mut Case) {
    let h_sig = case.h_sig();
    for which in 0..2 {
        case.new[which].rho = hashes::new_rho(which, &case.phi, &h_sig);
    }
    set_commitments(case);
}

/// Works out the commitments.
pub fn set_commitments(case: &mut Case) {
    case.commitments = [case.new[0].commitment(), case.new[1].commitment()];
}

/// Gives the new notes what the public and old values leave for them, and
/// works out the commitments. False, with nothing changed, if two notes
/// cannot hold it or if it goes above what the balance may come to.
pub fn balance(random: &mut Random, case: &mut Case) -> bool {
    let paid = Some(case.value_in()).filter(|paid| *paid <= MAX_SUM);
    let left = paid.and_then(|paid| paid.checked_sub(case.vpub_new.whole()));
    let Some(shares) = left.and_then(|total| split(random, total)) else {
        return false;
    };
    set_new_values(case, shares);
    true
}

/// Sets the new values and works out the commitments.
pub fn set_new_values(case: &mut Case, values: [Amount; 2]) {
    case.new[0].value = values[0];
    case.new[1].value = values[1];
    set_commitments(case);
}

/// Two amounts with this sum, if there are any.
pub fn split(random: &mut Random, total: u128) -> Option<[Amount; 2]> {
    let top = u128::from(u64::MAX);
    if total > 2 * top {
        return None;
    }
    let (least, most) = (total.saturating_sub(top), total.min(top));
    let first = match random.below(4) {
        0 => least,
        1 => most,
        _ => random.between(least, most),
    };
    Some([first, total - first].map(|share| Amount(share as u64)))
}
