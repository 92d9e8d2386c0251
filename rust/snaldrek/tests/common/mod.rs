//! Both judges side by side: a ledger of the wrapper, and the second judge's.
#![allow(dead_code)]

use second::answer::Answer as Plain;
use second::ledger::Ledger as PlainLedger;
use second::random::Random;
use second::tape::keep_body;
use snaldrek::{Answer, Edition, Ledger, Refusal, LEDGER_BYTES};

/// Where a case has its ephemeral key and its proof, and how long its two
/// ciphertexts are, which stand right behind the proof.
const EPHEMERAL_KEY: usize = 176;
const PROOF: usize = 304;
const CIPHERTEXTS: usize = 2 * 601;

/// The code of an answer of the second judge: number, place and row.
pub fn code(answer: Plain) -> u32 {
    let row = u16::try_from(answer.row.0).expect("a row below 65,536");
    u32::from(answer.number) + 256 * u32::from(answer.place) + 65_536 * u32::from(row)
}

/// Holds an answer of the wrapper to the second judge's: the whole code, and
/// its name.
pub fn assert_answer(answer: Answer, expected: Plain, what: &str) {
    assert_eq!(
        Refusal::code_of(answer),
        code(expected),
        "{what}: {answer:?}, and by the second judge {expected:?}"
    );
    assert_eq!(answer, Refusal::answer(code(expected)), "{what}");
}

/// The second judge's ledger in the library's bytes: a plant's body starts
/// with the same counts, pool and record.
pub fn ledger_bytes(ledger: &PlainLedger) -> [u8; LEDGER_BYTES] {
    keep_body(ledger)[..LEDGER_BYTES]
        .try_into()
        .expect("a plant's body is longer")
}

/// The second judge's ledger as one of the wrapper.
pub fn same_ledger(ledger: &PlainLedger) -> Ledger {
    Ledger::from_parts(
        ledger_bytes(ledger),
        ledger.table.clone(),
        ledger.roll.clone(),
    )
}

/// Holds every byte of the two ledgers to each other.
pub fn assert_alike(ours: &Ledger, theirs: &PlainLedger, when: &str) {
    let (bytes, table, roll) = ours.parts();
    assert!(
        bytes[..] == ledger_bytes(theirs),
        "the ledger's bytes, {when}"
    );
    assert!(table == theirs.table, "the table's bytes, {when}");
    assert!(roll == theirs.roll, "the roll's bytes, {when}");
    assert_eq!(ours.spent(), theirs.spent, "{when}");
    assert_eq!(ours.anchors(), theirs.anchors, "{when}");
    assert_eq!(ours.pool(), theirs.pool, "{when}");
    assert_eq!(ours.leaves(), theirs.tree.count(), "{when}");
}

/// The same case in this edition, with other bytes for all that is carried.
pub fn in_edition(random: &mut Random, file: &[u8], edition: Edition) -> Vec<u8> {
    let was = Edition::of_case(file).expect("a file of either edition");
    let behind = &file[PROOF + was.proof_bytes() + CIPHERTEXTS..];
    let mut carried = vec![0; edition.proof_bytes() + CIPHERTEXTS];
    random.fill(&mut carried);
    let mut file = [&file[..PROOF], &carried, behind].concat();
    random.fill(&mut file[EPHEMERAL_KEY..EPHEMERAL_KEY + 32]);
    file
}

/// The edition that this one is not.
pub fn other(edition: Edition) -> Edition {
    match edition {
        Edition::First => Edition::Second,
        Edition::Second => Edition::First,
    }
}

/// The entries of a tape that was made sound: kind and body.
pub fn entries(tape: &[u8]) -> Vec<(u8, &[u8])> {
    let mut found = Vec::new();
    let mut rest = tape;
    while let [kind, a, b, c, d, after @ ..] = rest {
        let length = u32::from_le_bytes([*a, *b, *c, *d]) as usize;
        let Some((body, next)) = after.split_at_checked(length) else {
            break;
        };
        found.push((*kind, body));
        rest = next;
    }
    found
}
