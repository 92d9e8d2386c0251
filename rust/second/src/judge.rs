//! When the scanner says no: refusals 1 to 17, top to bottom.

use crate::answer::{Answer, Row, SPENT};
use crate::bytes::Bytes32;
use crate::case::{Case, MAX_MONEY, MAX_SUM};
use crate::hashes;
use crate::ledger::{is_pool, Ledger};
use crate::tree::climb;

/// One row of the table of refusals: the answer, and when it applies.
pub struct Rule {
    /// Number and place of what the rule answers. Which row goes with them is
    /// the ledger's to say.
    pub answer: Answer,
    /// Whether it applies, whatever the rows above it say.
    pub applies: fn(&Ledger, &Case) -> bool,
}

impl Rule {
    /// What the rule answers to a case that it applies to.
    fn refusal(&self, ledger: &Ledger, case: &Case) -> Answer {
        Answer {
            row: named_row(ledger, case, self.answer),
            ..self.answer
        }
    }
}

/// The row that an answer names: that of the nullifier that is refused as
/// spent, and none with every other number.
fn named_row(ledger: &Ledger, case: &Case, answer: Answer) -> Row {
    if answer.number != SPENT {
        return Row::NONE;
    }
    let nullifier = &case.nullifiers[usize::from(answer.place) - 1];
    ledger
        .row_of(nullifier)
        .expect("a spent nullifier has a row")
}

const fn rule(number: u8, place: u8, applies: fn(&Ledger, &Case) -> bool) -> Rule {
    Rule {
        answer: Answer::new(number, place),
        applies,
    }
}

/// The refusals of a case of either length, in order. None asks for its edition.
pub const RULES: [Rule; 26] = [
    rule(2, 0, |ledger, _| ledger.is_damaged()),
    rule(3, 0, |ledger, _| ledger.free_table_rows() < 2),
    rule(4, 0, |_, case| case.vpub_old.0 != 0 && case.vpub_new.0 != 0),
    rule(5, 1, |_, case| case.vpub_old > MAX_MONEY),
    rule(5, 2, |_, case| case.vpub_new > MAX_MONEY),
    rule(6, 0, |ledger, case| !ledger.has_anchor(&case.anchor)),
    rule(7, 0, |_, case| case.nullifiers[0] == case.nullifiers[1]),
    rule(8, 1, |ledger, case| ledger.has_spent(&case.nullifiers[0])),
    rule(8, 2, |ledger, case| ledger.has_spent(&case.nullifiers[1])),
    rule(9, 1, |_, case| old_note_is_misformed(case, 0)),
    rule(9, 2, |_, case| old_note_is_misformed(case, 1)),
    rule(9, 3, |_, case| has_top_bits(&case.phi)),
    rule(10, 1, |_, case| path_fails(case, 0)),
    rule(10, 2, |_, case| path_fails(case, 1)),
    rule(11, 0, |_, case| is_unbalanced(case)),
    rule(12, 1, |_, case| nullifier_is_wrong(case, 0)),
    rule(12, 2, |_, case| nullifier_is_wrong(case, 1)),
    rule(13, 1, |_, case| address_is_wrong(case, 0)),
    rule(13, 2, |_, case| address_is_wrong(case, 1)),
    rule(14, 1, |_, case| tag_is_wrong(case, 0)),
    rule(14, 2, |_, case| tag_is_wrong(case, 1)),
    rule(15, 1, |_, case| new_rho_is_wrong(case, 0)),
    rule(15, 2, |_, case| new_rho_is_wrong(case, 1)),
    rule(16, 1, |_, case| commitment_is_wrong(case, 0)),
    rule(16, 2, |_, case| commitment_is_wrong(case, 1)),
    rule(17, 0, |ledger, case| !is_pool(ledger.pool_after(case))),
];

/// Judges a case file: the answer, and the ledger changed only by a pass.
pub fn judge(ledger: &mut Ledger, file: &[u8]) -> Answer {
    let Some(case) = Case::read(file) else {
        return Answer::new(1, 0);
    };
    match first_refusal(ledger, &case) {
        Some(refusal) => refusal,
        None => {
            ledger.accept(&case);
            Answer::PASSED
        }
    }
}

/// The first refusal that applies.
pub fn first_refusal(ledger: &Ledger, case: &Case) -> Option<Answer> {
    RULES
        .iter()
        .find(|rule| (rule.applies)(ledger, case))
        .map(|rule| rule.refusal(ledger, case))
}

/// Every refusal that applies, in order; the judge gives the first.
pub fn all_refusals(ledger: &Ledger, case: &Case) -> Vec<Answer> {
    RULES
        .iter()
        .filter(|rule| (rule.applies)(ledger, case))
        .map(|rule| rule.refusal(ledger, case))
        .collect()
}

/// A key of 252 bits has nothing in the top four bits of its first byte.
fn has_top_bits(key: &Bytes32) -> bool {
    key[0] & 0xf0 != 0
}

fn old_note_is_misformed(case: &Case, which: usize) -> bool {
    let note = &case.old[which];
    has_top_bits(&note.a_sk) || !note.position.is_in_tree()
}

/// Only the path of a note of value zero is excused.
fn path_fails(case: &Case, which: usize) -> bool {
    let note = &case.old[which];
    note.value.0 != 0 && climb(&note.commitment(), note.position, &note.path) != case.anchor
}

/// The sides have to be equal, and to stay within the ceiling.
fn is_unbalanced(case: &Case) -> bool {
    case.value_in() != case.value_out() || case.value_in() > MAX_SUM
}

fn nullifier_is_wrong(case: &Case, which: usize) -> bool {
    let note = &case.old[which];
    case.nullifiers[which] != hashes::nullifier(&note.a_sk, &note.rho)
}

fn address_is_wrong(case: &Case, which: usize) -> bool {
    let note = &case.old[which];
    note.a_pk != hashes::address(&note.a_sk)
}

fn tag_is_wrong(case: &Case, which: usize) -> bool {
    case.tags[which] != hashes::tag(which, &case.old[which].a_sk, &case.h_sig())
}

fn new_rho_is_wrong(case: &Case, which: usize) -> bool {
    case.new[which].rho != hashes::new_rho(which, &case.phi, &case.h_sig())
}

fn commitment_is_wrong(case: &Case, which: usize) -> bool {
    case.commitments[which] != case.new[which].commitment()
}
