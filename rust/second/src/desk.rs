//! The desk: from a draft it writes the whole case (document 02, No. 3).
//!
//! A draft lies as a case file of either edition does. Ten of its fields are not
//! read, since the desk works them out: the nullifiers, the commitments, the tags,
//! the addresses of the old notes and the rho values of the new ones. All others
//! come into the case as they are.

use crate::answer::Answer;
use crate::bytes::Bytes32;
use crate::case::Case;
use crate::hashes;
use crate::judge::{Rule, RULES};
use crate::ledger::Ledger;
use crate::wallet::set_nullifiers;

/// What the desk refuses besides wrong lengths: these numbers of document 01's
/// table. None of them asks for a ledger.
const NUMBERS: [u8; 6] = [4, 5, 7, 9, 10, 11];

/// The rows of that table which the desk asks of the case that it would write, in
/// order.
pub fn rules() -> impl Iterator<Item = &'static Rule> {
    let is_asked = |rule: &&Rule| NUMBERS.contains(&rule.answer.number);
    RULES.iter().filter(is_asked)
}

/// Writes the case of a draft into a buffer. The draft has to have an edition's
/// length and the buffer the same, or it is refusal 1. A refusal leaves every byte
/// of the buffer.
pub fn write_case(draft: &[u8], buffer: &mut [u8]) -> Answer {
    let read = Case::read(draft).filter(|_| buffer.len() == draft.len());
    let Some(draft) = read else {
        return Answer::new(1, 0);
    };
    let case = worked_out(draft);
    let refusal = first_refusal(&case);
    if refusal.is_none() {
        buffer.copy_from_slice(&case.to_bytes());
    }
    refusal.unwrap_or(Answer::PASSED)
}

/// The first of the desk's rules that applies to a case that is worked out.
fn first_refusal(case: &Case) -> Option<Answer> {
    let no_ledger = Ledger::zeroed(Vec::new(), Vec::new());
    let applying = rules().find(|rule| (rule.applies)(&no_ledger, case));
    applying.map(|rule| rule.answer)
}

/// The case of a draft. Of a key the hashes take the low 252 bits.
pub fn worked_out(draft: Case) -> Case {
    let mut case = draft;
    for note in &mut case.old {
        note.a_pk = hashes::address(&note.a_sk);
    }
    set_nullifiers(&mut case);
    case
}

/// The ten fields that are worked out.
pub fn worked_out_fields(case: &mut Case) -> [&mut Bytes32; 10] {
    let Case {
        nullifiers: [nullifier_1, nullifier_2],
        commitments: [commitment_1, commitment_2],
        tags: [tag_1, tag_2],
        old: [old_1, old_2],
        new: [new_1, new_2],
        ..
    } = case;
    [
        nullifier_1,
        nullifier_2,
        commitment_1,
        commitment_2,
        tag_1,
        tag_2,
        &mut old_1.a_pk,
        &mut old_2.a_pk,
        &mut new_1.rho,
        &mut new_2.rho,
    ]
}
