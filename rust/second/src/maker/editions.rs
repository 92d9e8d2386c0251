//! Runs for the two editions of the description: files of their lengths, and of
//! one byte less and more; a note that is made in one edition and spent in the
//! other; one case in both editions; cases of both in either order; the ends of
//! the carried fields, and the bytes right beside them. Every long tape has them
//! all, beside the entries that it was asked for.
//!
//! Lengths and places of bytes are stated here and do not come from the judge's
//! own reading of a case.

use crate::answer::{Answer, Row};
use crate::case::{Amount, Case, Edition, NewNote};
use crate::hashes;
use crate::ledger::Ledger;
use crate::random::Random;
use crate::wallet::{in_edition, set_commitments, set_new_values, Note};

use super::misses::{case_over_leaves, ledger_for};
use super::rows::{case_putting, notes_with};
use super::Maker;

use Edition::{First, Second};

/// What the entries are made for.
const PURPOSE: &str = "case of two editions";

/// All of them.
pub(super) fn edition_runs(maker: &mut Maker) {
    lengths(maker);
    spends_other(maker, First);
    spends_other(maker, Second);
    one_case(maker);
    mixed_order(maker);
    shared_nullifier(maker);
}

/// Puts a case on the tape, which this ledger has to answer so.
fn judge(maker: &mut Maker, case: &Case, answer: Answer) {
    maker.ask_case(&case.to_bytes(), answer, PURPOSE);
    if answer.is_pass() {
        maker.purse.settle(case);
    }
}

fn look(maker: &mut Maker) {
    maker.look_at_ledger();
    maker.look_at_memory("memory after cases of two editions");
}

/// Both lengths, and those that are one byte off. A file that is cut or lengthened
/// to the other edition's length is read as one of that edition: then key 1 is a
/// piece of a ciphertext, or the trapdoor of old note 1, and these begin with ones.
fn lengths(maker: &mut Maker) {
    maker.name("edition-lengths");
    maker.open(5 * 32 + 9, 2 * 32 + 5);
    let [first, second] = [First, Second].map(|edition| {
        let notes = notes_with(maker, [0x20, 0x60]);
        let case = case_putting(maker, notes.each_ref(), Amount(10));
        let mut case = in_edition(&mut maker.random, &case, edition);
        case.ciphertexts = [[0xff; 601]; 2];
        case.old[0].r = [0xff; 32];
        case
    });
    let [long, short] = [&first, &second].map(Case::to_bytes);
    let lengthened = |file: &[u8], more: usize| [file, &vec![0; more]].concat();
    for (file, length, answer) in [
        (long[..4_209].to_vec(), 4_209, Answer::new(1, 0)),
        (lengthened(&long, 1), 4_211, Answer::new(1, 0)),
        (short[..4_105].to_vec(), 4_105, Answer::new(1, 0)),
        (lengthened(&short, 1), 4_107, Answer::new(1, 0)),
        (long[..4_106].to_vec(), 4_106, Answer::new(9, 1)),
        (lengthened(&short, 104), 4_210, Answer::new(9, 1)),
    ] {
        assert_eq!(file.len(), length, "a file that was made so long");
        maker.ask_case(&file, answer, PURPOSE);
    }
    maker.look_at_memory("memory after a refusal");
    judge(maker, &first, Answer::PASSED);
    judge(maker, &second, Answer::PASSED);
    look(maker);
}

/// Notes that a case of this edition makes are spent by one of the other edition,
/// both of them, once the block is closed; then by the same case in the edition
/// that they were made in.
fn spends_other(maker: &mut Maker, edition: Edition) {
    let other = edition.other();
    maker.name(&format!("edition-{other}-spends-{edition}"));
    maker.open(6 * 32 + 9, 3 * 32 + 5);
    let (making, notes) = making_notes(maker);
    let making = in_edition(&mut maker.random, &making, edition);
    judge(maker, &making, Answer::PASSED);
    maker.close_block();
    let spending = case_over_leaves(&mut maker.random, &notes, [0, 5]);
    let spending = in_edition(&mut maker.random, &spending, other);
    judge(maker, &spending, Answer::PASSED);
    let again = in_edition(&mut maker.random, &spending, edition);
    judge(maker, &again, Answer::spent(1, Row(1)));
    look(maker);
}

/// A case that makes notes of 10 and 20, and those notes. Of the four nullifiers
/// those of the notes come second and last in a table.
fn making_notes(maker: &mut Maker) -> (Case, [Note; 2]) {
    let idle = notes_with(maker, [0x20, 0x60]);
    let mut case = case_putting(maker, idle.each_ref(), Amount(30));
    set_new_values(&mut case, [Amount(10), Amount(20)]);
    let random = &mut maker.random;
    let notes = [(0, 0x40), (1, 0x80)].map(|(place, first_byte)| {
        let note = note_of(random, &case.new[place], first_byte);
        case.new[place].a_pk = note.a_pk;
        note
    });
    set_commitments(&mut case);
    (case, notes)
}

/// A new note as its owner has it, for a key by which its nullifier begins with
/// this byte.
fn note_of(random: &mut Random, new: &NewNote, first_byte: u8) -> Note {
    loop {
        let a_sk = random.key();
        let note = Note {
            a_sk,
            a_pk: hashes::address(&a_sk),
            value: new.value,
            rho: new.rho,
            r: new.r,
        };
        if note.nullifier()[0] == first_byte {
            return note;
        }
    }
}

/// A right case over two notes of 7 and 5 whose nullifiers begin with these bytes.
fn case_with(random: &mut Random, first_bytes: [u8; 2]) -> Case {
    let [one, other] = [(7, first_bytes[0]), (5, first_bytes[1])];
    let notes = [one, other].map(|(value, first_byte)| loop {
        let note = Note::random(random, Amount(value));
        if note.nullifier()[0] == first_byte {
            break note;
        }
    });
    case_over_leaves(random, &notes, [1, 0])
}

/// A case with these bytes of its file turned over.
fn changed(case: &Case, at: &[usize]) -> Case {
    let mut file = case.to_bytes();
    for byte in at {
        file[*byte] ^= 0xff;
    }
    Case::read(&file).expect("a file as long as it was")
}

/// One case in both editions, each on the same ledger.
fn one_case(maker: &mut Maker) {
    let case = case_with(&mut maker.random, [0x80, 0xa0]);
    let ledger = ledger_for(maker, 4, 9, &[&case, &case]);
    let [first, second] = [First, Second].map(|to| in_edition(&mut maker.random, &case, to));
    same_case(maker, &ledger, &first, &second);
    same_case(maker, &ledger, &second, &first);
    let ends = [176, 207, 304, 599, 600, 1_200, 1_201, 1_801];
    carried_fields(maker, &ledger, &first, ends, 1_802);
    let ends = [176, 207, 304, 495, 496, 1_096, 1_097, 1_697];
    carried_fields(maker, &ledger, &second, ends, 1_698);
}

/// The case in one edition, first with the last byte of commitment 2 wrong, and
/// then in the other.
fn same_case(maker: &mut Maker, ledger: &Ledger, one: &Case, other: &Case) {
    maker.name(&format!("edition-same-case-{}", one.edition()));
    maker.plant(ledger, PURPOSE);
    judge(maker, &changed(one, &[175]), Answer::new(16, 2));
    maker.look_at_memory("memory after a refusal");
    judge(maker, one, Answer::PASSED);
    look(maker);
    judge(maker, other, Answer::spent(1, Row(4)));
    maker.leave_ledger();
}

/// What stands right beside the carried fields is read: the first byte of the
/// seed, the last one of tag 2 and the first one of the transaction key. (The last
/// one of commitment 2 is in the runs before.) What they end with themselves is
/// not: ephemeral key, proof and both ciphertexts.
fn carried_fields(maker: &mut Maker, ledger: &Ledger, case: &Case, ends: [usize; 8], key: usize) {
    maker.name(&format!("edition-carried-{}", case.edition()));
    maker.plant(ledger, PURPOSE);
    judge(maker, &changed(case, &[208]), Answer::new(14, 1));
    judge(maker, &changed(case, &[303]), Answer::new(14, 2));
    judge(maker, &changed(case, &[key]), Answer::new(14, 1));
    judge(maker, &changed(case, &ends), Answer::PASSED);
    look(maker);
}

/// c is in the first edition and d in the second: both pass in either order.
fn mixed_order(maker: &mut Maker) {
    let c = case_with(&mut maker.random, [0x80, 0xc0]);
    let c = in_edition(&mut maker.random, &c, First);
    let d = case_with(&mut maker.random, [0xa0, 0xe0]);
    let d = in_edition(&mut maker.random, &d, Second);
    let ledger = ledger_for(maker, 4, 0, &[&c, &d]);
    let passed = Answer::PASSED;
    in_order(
        maker,
        "edition-order-c-d",
        &ledger,
        [(&c, passed), (&d, passed)],
    );
    in_order(
        maker,
        "edition-order-d-c",
        &ledger,
        [(&d, passed), (&c, passed)],
    );
}

/// The same with a nullifier in common. It goes above the four rows that are
/// planted and below the other one of its case.
fn shared_nullifier(maker: &mut Maker) {
    let [shared, own, others] = notes_with(maker, [0x80, 0xa0, 0xc0]);
    let c = case_putting(maker, [&shared, &own], Amount(6));
    let c = in_edition(&mut maker.random, &c, First);
    let d = case_putting(maker, [&others, &shared], Amount(5));
    let d = in_edition(&mut maker.random, &d, Second);
    let ledger = ledger_for(maker, 4, 0, &[&c, &d]);
    let passed = Answer::PASSED;
    let spent = |place: u8| Answer::spent(place, Row(4));
    in_order(
        maker,
        "edition-shared-c-d",
        &ledger,
        [(&c, passed), (&d, spent(2))],
    );
    in_order(
        maker,
        "edition-shared-d-c",
        &ledger,
        [(&d, passed), (&c, spent(1))],
    );
}

/// Two cases on this ledger, one after the other, with their answers.
fn in_order(maker: &mut Maker, name: &str, ledger: &Ledger, cases: [(&Case, Answer); 2]) {
    maker.name(name);
    maker.plant(ledger, PURPOSE);
    for (case, answer) in cases {
        judge(maker, case, answer);
    }
    look(maker);
}
