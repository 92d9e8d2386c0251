//! Cases written from drafts: accepted in either edition, refused with each
//! number at each of its places, and nothing written then.

use snaldrek::{
    calls, Answer, Bound, Draft, Edition, Ledger, NewNote, OldNote, Pair, Proof, Refusal, MAX_MONEY,
};

const PROOFS: [Proof; 2] = [Proof::First([8; 296]), Proof::Second([8; 192])];

/// Where the ten fields of 32 bytes that are worked out start: those before the
/// proof, and those behind it in the first edition.
const BEFORE: [usize; 6] = [48, 80, 112, 144, 240, 272];
const BEHIND: [usize; 4] = [1_866, 2_934, 4_010, 4_114];

fn fresh() -> Ledger {
    Ledger::open(4, 2).expect("rows for anchors")
}

/// A draft that puts 10,000 in.
fn mint(proof: Proof) -> Draft {
    Draft {
        vpub_old: 10_000,
        vpub_new: 0,
        anchor: fresh().root(),
        ephemeral_key: [9; 32],
        seed: [1; 32],
        proof,
        ciphertexts: [[10; 601], [11; 601]],
        transaction_key: [2; 32],
        old: [3, 4].map(|byte| OldNote::without_value([byte; 32], [byte; 32])),
        new: [10_000, 0].map(|value| NewNote {
            address: [5; 32],
            value,
            r: [6; 32],
        }),
        phi: [7; 32],
    }
}

/// The answer to a draft, and the buffer of this many bytes after it.
fn asked(draft: &Draft, length: usize) -> (Answer, Vec<u8>) {
    let mut buffer = vec![0x5a; length];
    (draft.write_into(&mut buffer), buffer)
}

#[test]
fn what_is_written_is_accepted_in_either_edition() {
    for proof in PROOFS {
        let (edition, mut ledger) = (proof.edition(), fresh());
        let case = mint(proof).write().expect("a sound draft");
        assert_eq!(Edition::of_case(&case), Some(edition));
        assert_eq!(ledger.judge(&case), Ok(()), "{edition:?}");
        assert_eq!((ledger.spent(), ledger.leaves()), (2, 2));
        assert_eq!(ledger.pool(), 10_000);
        let again = ledger.judge(&case).expect_err("it is spent");
        assert_eq!((again.number(), again.place()), (8, 1));
    }
}

/// What of a draft is bent, and how it is then refused. In the order in which it
/// is asked.
type Bend = (Refusal, fn(&mut Draft));

const BENDS: [Bend; 11] = [
    (Refusal::BothPublicValues, |draft| {
        (draft.vpub_old, draft.vpub_new) = (1, 1);
    }),
    (Refusal::PublicValueTooHigh(Pair::First), |draft| {
        (draft.vpub_old, draft.vpub_new) = (MAX_MONEY + 1, 0);
    }),
    (Refusal::PublicValueTooHigh(Pair::Second), |draft| {
        (draft.vpub_old, draft.vpub_new) = (0, MAX_MONEY + 1);
    }),
    (Refusal::NullifiersEqual, |draft| {
        draft.old[1] = draft.old[0].clone();
        draft.old[1].key[0] ^= 0xf0;
    }),
    (Refusal::OutOfRange(Bound::OldNote(Pair::First)), |draft| {
        draft.old[0].key[0] |= 0x10;
    }),
    (Refusal::OutOfRange(Bound::OldNote(Pair::First)), |draft| {
        draft.old[0].position = 1 << 29;
    }),
    (Refusal::OutOfRange(Bound::OldNote(Pair::Second)), |draft| {
        draft.old[1].position = u32::MAX;
    }),
    (Refusal::OutOfRange(Bound::Phi), |draft| {
        draft.phi[0] |= 0x80;
    }),
    (Refusal::PathWrong(Pair::First), |draft| {
        draft.old[0].value = 1;
    }),
    (Refusal::PathWrong(Pair::Second), |draft| {
        draft.old[1].value = 1;
    }),
    (Refusal::NotBalanced, |draft| draft.new[0].value = 9_999),
];

/// The refusal, by both ways of writing, and no byte of the buffer.
fn assert_refused(draft: &Draft, refusal: Refusal) {
    assert_eq!(draft.write(), Err(refusal));
    let length = draft.proof.edition().case_bytes();
    assert_eq!(asked(draft, length), (Err(refusal), vec![0x5a; length]));
}

#[test]
fn each_refusal_is_given_at_its_place() {
    for proof in PROOFS {
        for (refusal, bend) in BENDS {
            let mut draft = mint(proof.clone());
            bend(&mut draft);
            assert_refused(&draft, refusal);
        }
    }
}

#[test]
fn the_first_that_applies_is_given() {
    for proof in PROOFS {
        let mut draft = mint(proof);
        for (refusal, bend) in BENDS.into_iter().rev() {
            bend(&mut draft);
            assert_refused(&draft, refusal);
        }
    }
}

#[test]
fn a_buffer_of_another_length_is_refused_and_stays() {
    for proof in PROOFS {
        let draft = mint(proof);
        let right = draft.proof.edition().case_bytes();
        for length in [0, 1, 4_105, 4_106, 4_107, 4_158, 4_209, 4_210, 4_211, 8_420] {
            let (answer, buffer) = asked(&draft, length);
            if length == right {
                assert_eq!((answer, Ok(buffer)), (Ok(()), draft.write()));
            } else {
                assert_eq!(answer, Err(Refusal::WrongLength), "{length} bytes");
                assert_eq!(buffer, vec![0x5a; length]);
            }
        }
    }
}

/// Of these bytes every draft has two public values, and what has another length
/// is not looked at.
#[test]
fn a_draft_has_one_of_two_lengths() {
    for length in (0..=4_300).chain([8_212, 8_420, 65_536 + 4_106, 65_536 + 4_210]) {
        for room in [0, 4_106, 4_210, length] {
            let (draft, mut buffer) = (vec![1; length], vec![0x5a; room]);
            let is_case = Edition::of_case(&draft).is_some() && room == length;
            let expected = if is_case { 4 } else { 1 };
            let answer = calls::write_case(&draft, &mut buffer);
            assert_eq!(answer, expected, "{length} bytes into {room}");
            assert_eq!(buffer, vec![0x5a; room]);
        }
    }
}

/// The case's own bytes, zeros and ones where something is worked out: all the same
/// case, in which nothing else is changed.
#[test]
fn what_is_worked_out_is_not_read() {
    for proof in PROOFS {
        let case = mint(proof).write().expect("a sound draft");
        let earlier = Edition::First.case_bytes() - case.len();
        let behind = BEHIND.map(|start| start - earlier);
        for byte in [None, Some(0), Some(0xff)] {
            let mut draft = case.clone();
            for start in BEFORE.iter().chain(&behind) {
                let field = &mut draft[*start..start + 32];
                assert_ne!(field, [0; 32], "{start} is worked out");
                byte.map(|byte| field.fill(byte));
            }
            let mut written = vec![0x5a; case.len()];
            assert_eq!(calls::write_case(&draft, &mut written), 0);
            assert!(written == case, "another case over {byte:?}");
        }
    }
}

#[test]
fn debugging_prints_no_key() {
    assert_eq!(
        format!("{:?}", mint(Proof::Second([8; 192]))),
        "Draft { vpub_old: 10000, vpub_new: 0, proof: Proof(Second), \
         old: [OldNote { value: 0, position: 0, .. }, OldNote { value: 0, position: 0, .. }], \
         new: [NewNote { value: 10000, .. }, NewNote { value: 0, .. }], .. }"
    );
}
