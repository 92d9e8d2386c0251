//! Runs for the desk: what it writes, at the edges of what it takes and whatever
//! stands where it works out; each refusal alone, and together with the next one;
//! drafts and buffers of wrong lengths. All come in both editions. Every long tape
//! has them, beside the entries that it was asked for.

use crate::answer::Answer;
use crate::bytes::Bytes32;
use crate::case::{Amount, Case, Edition, Position, MAX_MONEY};
use crate::desk::{worked_out, worked_out_fields};
use crate::hashes;
use crate::judge::all_refusals;
use crate::ledger::Ledger;
use crate::random::Random;
use crate::tape::{draft_body, MAX_DESK_BYTES};
use crate::tree::{climb, DEPTH, FULL};
use crate::wallet::{balance, in_edition, set_new_rhos, set_new_values, write_case, Note, Plan};

use super::coverage::answer_of;
use super::misses::{balanced_case, case_over_leaves, ledger_for, values, Values};
use super::rows::case_putting;
use super::Maker;

/// All money: the most that a public value may be.
const MOST: u64 = MAX_MONEY.0;

/// 2^64 - 1: the most that either side of the balance may come to.
const CEILING: u64 = u64::MAX;

/// A length between those of the two editions.
const BETWEEN: usize = 4_158;

/// A draft of a case: what the desk works out is noise.
pub(super) fn draft_of(random: &mut Random, case: &Case) -> Case {
    let mut draft = case.clone();
    for field in worked_out_fields(&mut draft) {
        random.fill(field);
    }
    draft
}

/// Whether the desk could have written a case: nothing is refused of it but by what
/// a ledger has.
pub(super) fn is_of_desk(case: &Case) -> bool {
    let no_ledger = Ledger::zeroed(Vec::new(), Vec::new());
    let refusals = all_refusals(&no_ledger, case);
    let is_of_ledger = |refusal: &Answer| [2, 3, 6, 8, 17].contains(&refusal.number);
    refusals.iter().all(is_of_ledger)
}

/// A draft of a bent case, mostly with noise in it. Where the case was bent for an
/// answer of the desk's that noise cannot change, the desk has to give it.
pub(super) fn bent_draft(maker: &mut Maker) {
    let Some((bend, case)) = maker.any_bend() else {
        return;
    };
    let draft = if maker.random.one_in(4) {
        case
    } else {
        draft_of(&mut maker.random, &case)
    };
    let file = draft.to_bytes();
    let purpose = Some("draft of a bent case".to_owned());
    let lines = maker.put(b'D', &draft_body(file.len(), &file), purpose);
    if [4, 5, 9, 10, 11].contains(&bend.answer.number) {
        assert_eq!(answer_of(&lines[0]), Some(("desk", bend.answer)));
    }
    if lines.get(1).is_some_and(|line| line == "case 0 0") {
        maker.purse.settle(&worked_out(draft));
    }
}

/// A draft of a good case, cut or lengthened, and a buffer that is not as long, or as
/// long as no edition.
pub(super) fn misfit_draft(maker: &mut Maker) {
    let lengths = [0, 4_105, 4_106, 4_107, BETWEEN, 4_209, 4_210, 4_211];
    let (length, buffer) = loop {
        let [length, buffer] = [(); 2].map(|()| *maker.random.pick(&lengths));
        if length != buffer || Edition::of_length(length).is_none() {
            break (length, buffer);
        }
    };
    let case = maker.purse.good_case(&mut maker.random);
    let mut draft = draft_of(&mut maker.random, &case).to_bytes();
    draft.resize(length, 0);
    maker.refuse_draft(&draft, buffer, Answer::new(1, 0));
}

/// All runs.
pub(super) fn desk_runs(maker: &mut Maker) {
    for edition in Edition::ALL {
        writes(maker, edition);
        writes_at_the_edges(maker, edition);
        writes_all_money(maker, edition);
        writes_nearly_equal_notes(maker, edition);
        refuses(maker, edition);
        refuses_lengths(maker, edition);
        look_and_leave(maker);
    }
    refuses_neither_length(maker);
}

/// Has the desk write a case from a draft with noise. The case is then answered so.
fn write(maker: &mut Maker, case: &Case, answer: Answer) {
    let draft = draft_of(&mut maker.random, case);
    write_from(maker, &draft, case, answer);
}

fn write_from(maker: &mut Maker, draft: &Case, case: &Case, answer: Answer) {
    let given = maker.ask_draft(draft, case, &format!("desk {}", Answer::PASSED));
    assert_eq!(given, answer, "a case that the desk wrote");
    if answer.is_pass() {
        maker.purse.settle(case);
    }
}

/// Plants a ledger with this in its pool, room for these cases, and their anchors.
fn plant(maker: &mut Maker, pool: u64, cases: &[&Case]) {
    let ledger = ledger_for(maker, 4, pool, cases);
    maker.plant(&ledger, "ledger for the desk's cases");
}

fn look_and_leave(maker: &mut Maker) {
    maker.look_at_ledger();
    maker.leave_ledger();
}

/// A right case of these values in this edition.
fn case_of(random: &mut Random, edition: Edition, values: Values) -> Case {
    let case = balanced_case(random, &values);
    in_edition(random, &case, edition)
}

/// The case that most runs bend: over notes of 7 and 5, it puts 1 in.
fn plain_case(random: &mut Random, edition: Edition) -> Case {
    case_of(random, edition, values(1, [7, 5], 0))
}

/// A case, and the same one from drafts that have zero bytes, ones, the right bytes
/// and those of the other place in what is worked out.
fn writes(maker: &mut Maker, edition: Edition) {
    maker.name(&format!("desk-writes-{edition}"));
    let case = plain_case(&mut maker.random, edition);
    plant(maker, 0, &[&case, &case]);
    write(maker, &case, Answer::PASSED);
    look_at_both(maker);
    maker.name(&format!("desk-writes-over-any-noise-{edition}"));
    let filled = |byte: u8| {
        let mut draft = case.clone();
        for field in worked_out_fields(&mut draft) {
            field.fill(byte);
        }
        draft
    };
    for draft in [filled(0), filled(255), case.clone(), exchanged(&case)] {
        write_from(maker, &draft, &case, maker.spent_again(&case));
    }
    maker.leave_ledger();
}

/// What is worked out for one place stands in the other.
fn exchanged(case: &Case) -> Case {
    let mut draft = case.clone();
    let mut fields = worked_out_fields(&mut draft);
    for pair in fields.chunks_exact_mut(2) {
        let [one, other] = pair else { continue };
        std::mem::swap::<Bytes32>(one, other);
    }
    draft
}

fn look_at_both(maker: &mut Maker) {
    maker.look_at_ledger();
    maker.look_at_memory("memory after a case of the desk's");
}

/// Keys and phi that begin with 0x0F, and the last leaf: once in each place, the
/// other note there having no value and a path to nowhere. Then the highest sum.
fn writes_at_the_edges(maker: &mut Maker, edition: Edition) {
    maker.name(&format!("desk-writes-at-the-edges-{edition}"));
    let [one, other] = [0, 1].map(|which| edge_case(&mut maker.random, edition, which));
    let highest = case_of(&mut maker.random, edition, values(1, [CEILING - 2, 1], 0));
    plant(maker, 0, &[&one, &other, &highest]);
    for case in [&one, &other, &highest] {
        write(maker, case, Answer::PASSED);
    }
    look_and_leave(maker);
}

/// A right case whose note in this place is the last leaf of its tree.
fn edge_case(random: &mut Random, edition: Edition, which: usize) -> Case {
    let mut old = [0, 0].map(|value| {
        let note = edge_note(random, Amount(value));
        note.at(Position(FULL - 1), std::array::from_fn(|_| random.bytes()))
    });
    old[which].value = Amount(9);
    let anchor = climb(
        &old[which].commitment(),
        old[which].position,
        &old[which].path,
    );
    let plan = Plan {
        vpub_old: Amount::ZERO,
        vpub_new: Amount::ZERO,
        anchor,
        old,
        new: [4, 5].map(|value| (random.bytes(), Amount(value))),
    };
    let mut case = write_case(random, plan);
    case.phi[0] = 0x0f;
    set_new_rhos(&mut case);
    in_edition(random, &case, edition)
}

/// A note whose key begins with the most that it may.
fn edge_note(random: &mut Random, value: Amount) -> Note {
    let mut note = Note::random(random, value);
    note.a_sk[0] = 0x0f;
    note.a_pk = hashes::address(&note.a_sk);
    note
}

/// All money goes in, and comes out again.
fn writes_all_money(maker: &mut Maker, edition: Edition) {
    maker.name(&format!("desk-writes-all-money-{edition}"));
    let into = case_of(&mut maker.random, edition, values(MOST, [0, 0], 0));
    let out = case_of(&mut maker.random, edition, values(0, [MOST, 0], MOST));
    plant(maker, 0, &[&into, &out]);
    write(maker, &into, Answer::PASSED);
    maker.look_at_ledger();
    write(maker, &out, Answer::PASSED);
    look_and_leave(maker);
}

/// Notes of one key whose rho differ in the last bit, and notes of one rho whose
/// keys differ in the highest of their 252 bits.
fn writes_nearly_equal_notes(maker: &mut Maker, edition: Edition) {
    maker.name(&format!("desk-writes-nearly-equal-notes-{edition}"));
    let note = Note::random(&mut maker.random, Amount::ZERO);
    let mut rho_beside = note.clone();
    rho_beside.rho[31] ^= 1;
    let one = Note::random(&mut maker.random, Amount::ZERO);
    let mut key_beside = one.clone();
    key_beside.a_sk[0] ^= 8;
    key_beside.a_pk = hashes::address(&key_beside.a_sk);
    let cases = [[&note, &rho_beside], [&key_beside, &one]].map(|notes| {
        let case = case_putting(maker, notes, Amount(1));
        in_edition(&mut maker.random, &case, edition)
    });
    plant(maker, 0, &cases.each_ref());
    for case in &cases {
        write(maker, case, Answer::PASSED);
    }
    look_and_leave(maker);
}

/// Has the desk refuse a case of which a draft with noise is made.
fn refuse(maker: &mut Maker, case: &Case, refusal: Answer) {
    let draft = draft_of(&mut maker.random, case).to_bytes();
    maker.refuse_draft(&draft, draft.len(), refusal);
}

/// A case with something bent.
fn bent(case: &Case, bends: &[&dyn Fn(&mut Case)]) -> Case {
    let mut case = case.clone();
    bends.iter().for_each(|bend| bend(&mut case));
    case
}

/// Each refusal of a draft of the right length: alone, at each of its places, and
/// with the next one, of which nothing must show.
fn refuses(maker: &mut Maker, edition: Edition) {
    let case = plain_case(&mut maker.random, edition);
    refuses_public_values(maker, &case);
    refuses_equal_notes(maker, &case);
    refuses_encodings(maker, &case);
    refuses_paths(maker, &case);
    refuses_sums(maker, &case);
}

/// Names the run of what is refused with this of this case's edition.
fn name(maker: &mut Maker, refused: &str, case: &Case) {
    maker.name(&format!("desk-refuses-{refused}-{}", case.edition()));
}

/// Both public values, by which a balance stays as it is; then 5 too.
fn refuses_public_values(maker: &mut Maker, case: &Case) {
    let edition = case.edition();
    name(maker, "4", case);
    let both = bent(case, &[&put_one_in_and_out]);
    refuse(maker, &both, Answer::new(4, 0));
    name(maker, "4-before-5", case);
    for values in [values(MOST + 1, [7, 5], 1), values(1, [MOST, 5], MOST + 1)] {
        let both = case_of(&mut maker.random, edition, values);
        refuse(maker, &both, Answer::new(4, 0));
    }
    let [into, out] = [
        (Answer::new(5, 1), values(MOST + 1, [7, 5], 0)),
        (Answer::new(5, 2), values(0, [MOST, 5], MOST + 1)),
    ]
    .map(|(refusal, values)| (refusal, case_of(&mut maker.random, edition, values)));
    name(maker, "5", case);
    for (refusal, case) in [&into, &out] {
        refuse(maker, case, *refusal);
    }
    name(maker, "5-before-7", case);
    for (refusal, case) in [&into, &out] {
        let twice = one_note_twice(&mut maker.random, case);
        refuse(maker, &twice, *refusal);
    }
}

fn put_one_in_and_out(case: &mut Case) {
    case.vpub_old.0 += 1;
    case.vpub_new.0 += 1;
}

/// A case with its first old note in both places, balanced.
fn one_note_twice(random: &mut Random, case: &Case) -> Case {
    let mut case = case.clone();
    case.old[1] = case.old[0].clone();
    assert!(balance(random, &mut case), "small values are balanced");
    case
}

/// One note in both places; then with top bits in one of the keys, which the
/// nullifier leaves out.
fn refuses_equal_notes(maker: &mut Maker, case: &Case) {
    name(maker, "7", case);
    let twice = one_note_twice(&mut maker.random, case);
    refuse(maker, &twice, Answer::new(7, 0));
    name(maker, "7-before-9", case);
    for (which, bits) in [(0, 0x10), (1, 0xf0)] {
        let topped = bent(&twice, &[&|case| case.old[which].a_sk[0] |= bits]);
        refuse(maker, &topped, Answer::new(7, 0));
    }
}

/// Top bits that a key may not have, one at a time: the second edition has those
/// that the first has not.
fn top_bits(edition: Edition) -> [u8; 2] {
    match edition {
        Edition::First => [0x80, 0x20],
        Edition::Second => [0x40, 0x10],
    }
}

/// Keys and positions, which keep their low bits, and phi; then two of them, and the
/// last of them with a path.
fn refuses_encodings(maker: &mut Maker, case: &Case) {
    let [bit, other_bit] = top_bits(case.edition());
    let key_1 = |case: &mut Case| case.old[0].a_sk[0] |= bit;
    let key_2 = |case: &mut Case| case.old[1].a_sk[0] |= bit;
    let phi = |case: &mut Case| case.phi[0] |= bit;
    let first_leaf_beyond_2 = |case: &mut Case| {
        case.old.swap(0, 1);
        case.old[1].position.0 |= FULL;
    };
    name(maker, "9", case);
    for (place, bends) in [
        (1, [&key_1 as &dyn Fn(&mut Case)]),
        (1, [&|case| case.old[0].a_sk[0] |= other_bit]),
        (1, [&|case| case.old[0].position.0 |= FULL]),
        (2, [&key_2]),
        (2, [&|case| case.old[1].a_sk[0] |= other_bit]),
        (2, [&first_leaf_beyond_2]),
        (3, [&phi]),
        (3, [&|case| case.phi[0] |= other_bit]),
    ] {
        refuse(maker, &bent(case, &bends), Answer::new(9, place));
    }
    name(maker, "9-before-9", case);
    refuse(maker, &bent(case, &[&key_1, &key_2]), Answer::new(9, 1));
    refuse(maker, &bent(case, &[&key_2, &phi]), Answer::new(9, 2));
    name(maker, "9-before-10", case);
    refuse(
        maker,
        &bent(case, &[&phi, &|case| stray(case, 0)]),
        Answer::new(9, 3),
    );
}

/// Changes the ends of the path in this place.
fn stray(case: &mut Case, which: usize) {
    case.old[which].path[0][0] ^= 1;
    case.old[which].path[DEPTH - 1][31] ^= 1;
}

/// Paths that are off in the first byte or in the last; roots that are; leaves that
/// have another address than that of the key, which is in the draft; then both paths,
/// and one with a sum.
fn refuses_paths(maker: &mut Maker, case: &Case) {
    name(maker, "10", case);
    for which in [0, 1] {
        let refusal = Answer::new(10, which as u8 + 1);
        let first_off = |case: &mut Case| case.old[which].path[0][0] ^= 1;
        let last_off = |case: &mut Case| case.old[which].path[DEPTH - 1][31] ^= 1;
        refuse(maker, &bent(case, &[&first_off]), refusal);
        refuse(maker, &bent(case, &[&last_off]), refusal);
        let beside = beside_the_root(&mut maker.random, case, which);
        refuse(maker, &beside, refusal);
    }
    name(maker, "10-by-the-address", case);
    for which in [0, 1] {
        let draft = strangers_draft(&mut maker.random, case.edition(), which).to_bytes();
        maker.refuse_draft(&draft, draft.len(), Answer::new(10, which as u8 + 1));
    }
    name(maker, "10-before-10", case);
    let both = bent(case, &[&|case| stray(case, 0), &|case| stray(case, 1)]);
    refuse(maker, &both, Answer::new(10, 1));
    name(maker, "10-before-11", case);
    let unequal = bent(
        case,
        &[&|case| stray(case, 1), &|case| case.new[0].value.0 += 1],
    );
    refuse(maker, &unequal, Answer::new(10, 2));
}

/// A case whose anchor is off in one byte, where the note in this place alone has
/// value. It is the first byte in one place and the last in the other, and the other
/// way round in the other edition.
fn beside_the_root(random: &mut Random, case: &Case, which: usize) -> Case {
    let mut case = case.clone();
    case.old[1 - which].value = Amount::ZERO;
    assert!(balance(random, &mut case), "small values are balanced");
    let is_first = (which == 0) == (case.edition() == Edition::First);
    case.anchor[if is_first { 0 } else { 31 }] ^= 1;
    case
}

/// A draft of a case whose leaf in this place has a stranger's address. The draft
/// has that address; all else that is worked out is noise.
fn strangers_draft(random: &mut Random, edition: Edition, which: usize) -> Case {
    let mut notes = [7, 5].map(|value| Note::random(random, Amount(value)));
    notes[which].a_pk = random.bytes();
    let case = case_over_leaves(random, &notes, [1, 0]);
    let case = in_edition(random, &case, edition);
    let mut draft = draft_of(random, &case);
    draft.old[which].a_pk = notes[which].a_pk;
    draft
}

/// Sides that are one apart, sides that are 2^64 apart, and sides of 2^64.
fn refuses_sums(maker: &mut Maker, case: &Case) {
    name(maker, "11", case);
    let one_apart = bent(case, &[&|case| case.new[1].value.0 += 1]);
    let edition = case.edition();
    let above = case_of(&mut maker.random, edition, values(0, [CEILING, 1], 0));
    let mut apart = above.clone();
    set_new_values(&mut apart, [Amount::ZERO; 2]);
    for case in [one_apart, apart, above] {
        refuse(maker, &case, Answer::new(11, 0));
    }
}

/// Drafts that are one byte off, with a buffer of the edition's length and with one
/// of their own; then buffers of other lengths. To some of them refusal 4 applies,
/// too.
fn refuses_lengths(maker: &mut Maker, edition: Edition) {
    let case = plain_case(&mut maker.random, edition);
    let right = edition.case_bytes();
    let files = [&case, &bent(&case, &[&put_one_in_and_out])];
    let [plain, both] = files.map(|case| draft_of(&mut maker.random, case).to_bytes());
    name(maker, "1", &case);
    for (draft, length, buffer) in [
        (&plain, right - 1, right),
        (&both, right - 1, right - 1),
        (&plain, right + 1, right),
        (&plain, right + 1, right + 1),
        (&both, right, right - 1),
        (&plain, right, right + 1),
        (&plain, right, edition.other().case_bytes()),
        (&plain, right, 0),
        (&both, right, MAX_DESK_BYTES),
    ] {
        let mut draft = draft.clone();
        draft.resize(length, 0);
        maker.refuse_draft(&draft, buffer, Answer::new(1, 0));
    }
}

/// Drafts of no length and of one between the editions.
fn refuses_neither_length(maker: &mut Maker) {
    maker.name("desk-refuses-1-of-neither-length");
    let mut draft = plain_case(&mut maker.random, Edition::First).to_bytes();
    draft.truncate(BETWEEN);
    for (draft, buffer) in [
        (&[][..], 0),
        (&[], Edition::First.case_bytes()),
        (&[], Edition::Second.case_bytes()),
        (&draft, BETWEEN),
    ] {
        maker.refuse_draft(draft, buffer, Answer::new(1, 0));
    }
}
