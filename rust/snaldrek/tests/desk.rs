//! The desk beside the second judge's: a draft with the fields of a case of its
//! wallet is written as that very case, and so is any draft.

mod common;

use common::{assert_answer, same_ledger};
use second::case::{Amount, Case, OldNote as PlainOldNote, Position, Proof as PlainProof};
use second::desk::{worked_out_fields, write_case};
use second::hashes::address;
use second::ledger::Ledger as PlainLedger;
use second::random::Random;
use second::tree::{path_of_leaf, root_of_leaves};
use second::wallet::{self, idle_note, in_edition, Note, Plan};
use snaldrek::{calls, Draft, Ledger, NewNote, OldNote, Proof, Refusal};

/// What the holder of a case chooses of it.
fn draft_of(case: &Case) -> Draft {
    Draft {
        vpub_old: case.vpub_old.0,
        vpub_new: case.vpub_new.0,
        anchor: case.anchor,
        ephemeral_key: case.ephemeral_key,
        seed: case.seed,
        proof: match case.proof {
            PlainProof::First(bytes) => Proof::First(bytes),
            PlainProof::Second(bytes) => Proof::Second(bytes),
        },
        ciphertexts: case.ciphertexts,
        transaction_key: case.transaction_key,
        old: case.old.each_ref().map(|note| OldNote {
            key: note.a_sk,
            value: note.value.0,
            rho: note.rho,
            r: note.r,
            position: note.position.0,
            path: note.path,
        }),
        new: case.new.each_ref().map(|note| NewNote {
            address: note.a_pk,
            value: note.value.0,
            r: note.r,
        }),
        phi: case.phi,
    }
}

/// A case over some leaves that spends two of them, and puts 1 in or takes 1 out.
fn spending_case(random: &mut Random, put: u64) -> Case {
    let notes = [7, 5, 3].map(|value| Note::random(random, Amount(value)));
    let leaves = notes.each_ref().map(Note::commitment);
    let old = [2, 0].map(|leaf: usize| {
        let position = Position(leaf as u32);
        notes[leaf].at(position, path_of_leaf(&leaves, position))
    });
    case_of(random, [put, 1 - put], old, &leaves)
}

/// A case with these public values and old notes, under the anchor of these leaves.
fn case_of(
    random: &mut Random,
    [put, taken]: [u64; 2],
    old: [PlainOldNote; 2],
    leaves: &[[u8; 32]],
) -> Case {
    let value = put + old[0].value.0 + old[1].value.0 - taken;
    let plan = Plan {
        vpub_old: Amount(put),
        vpub_new: Amount(taken),
        anchor: root_of_leaves(leaves),
        old,
        new: [1, value - 1].map(|value| (random.bytes(), Amount(value))),
    };
    wallet::write_case(random, plan)
}

/// A ledger that has the case's anchor, and room.
fn ledger_for(case: &Case) -> Ledger {
    let (mut ledger, _) = PlainLedger::open(vec![0; 64], vec![0; 32]);
    ledger.roll.copy_from_slice(&case.anchor);
    ledger.pool = 1;
    same_ledger(&ledger)
}

#[test]
fn a_case_of_the_wallet_is_written_byte_for_byte() {
    let mut random = Random::new(1);
    for put in [0, 1].repeat(10) {
        for edition in second::case::Edition::ALL {
            let case = spending_case(&mut random, put);
            let case = in_edition(&mut random, &case, edition);
            let written = draft_of(&case).write();
            assert!(written == Ok(case.to_bytes()), "{edition} {put}");
            assert_eq!(ledger_for(&case).judge(&case.to_bytes()), Ok(()));
        }
    }
}

/// With a bit turned over, and noise in what is worked out: the answers are alike,
/// and so are all bytes of the buffers.
#[test]
fn any_draft_is_written_alike() {
    let mut random = Random::new(2);
    let mut passed = 0;
    for put in [0, 1].repeat(200) {
        let mut case = spending_case(&mut random, put);
        for field in worked_out_fields(&mut case) {
            random.fill(field);
        }
        let mut draft = case.to_bytes();
        random.flip_bit(&mut draft);
        let mut ours = vec![0xa5; draft.len()];
        let mut theirs = ours.clone();
        let answer = Refusal::answer(calls::write_case(&draft, &mut ours));
        assert_answer(answer, write_case(&draft, &mut theirs), "a draft");
        assert!(ours == theirs, "the buffer after a draft: {answer:?}");
        passed += usize::from(answer.is_ok());
    }
    assert!((100..300).contains(&passed), "{passed} of 400 passed");
}

/// A note that a written case made is spent by one that is written then, once its
/// block is closed.
#[test]
fn what_the_desk_made_the_desk_spends() {
    let mut random = Random::new(3);
    let a_sk = random.key();
    let old = [(); 2].map(|()| idle_note(&mut random));
    let mut draft = draft_of(&case_of(&mut random, [500, 0], old, &[]));
    draft.new[1].address = address(&a_sk);
    let file = draft.write().expect("a sound draft");
    let made = Case::read(&file).expect("a case");
    let [_, new] = made.new;
    let note = Note {
        a_sk,
        a_pk: new.a_pk,
        value: new.value,
        rho: new.rho,
        r: new.r,
    };
    let path = path_of_leaf(&made.commitments, Position(1));
    let old = [idle_note(&mut random), note.at(Position(1), path)];
    let spends = case_of(&mut random, [0, 400], old, &made.commitments);
    let spending = draft_of(&spends).write().expect("a sound draft");
    let mut ledger = Ledger::open(4, 2).expect("rows for anchors");
    assert_eq!(ledger.judge(&file), Ok(()));
    assert_eq!(ledger.judge(&spending), Err(Refusal::AnchorUnknown));
    assert_eq!(ledger.close(), Ok(()));
    assert_eq!(ledger.judge(&spending), Ok(()));
    assert_eq!((ledger.spent(), ledger.pool()), (4, 100));
}
