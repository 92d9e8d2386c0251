//! The desk: the cases that it writes, each refusal, and what it leaves alone.

mod common;

use common::{case_over, leaves_of, Shift};
use second::answer::Answer;
use second::bag::read_bag;
use second::bytes::{hex, Bytes32};
use second::case::{Amount, Case, Edition, Position, MAX_MONEY};
use second::desk::{rules, worked_out_fields, write_case};
use second::hashes;
use second::judge::{all_refusals, judge};
use second::ledger::Ledger;
use second::maker::bends::BENDS;
use second::random::Random;
use second::tree::{climb, DEPTH, FULL};
use second::wallet::{self, balance, in_edition, Note, Plan};

/// What the buffers hold before the desk has them.
const LENT: u8 = 0x5a;

/// Asks the desk with a buffer of this length: the answer, and the buffer after it.
/// A refusal must have left it.
fn ask(draft: &[u8], length: usize) -> (Answer, Vec<u8>) {
    let mut buffer = vec![LENT; length];
    let answer = write_case(draft, &mut buffer);
    let is_left = buffer.iter().all(|byte| *byte == LENT);
    assert!(answer.is_pass() || is_left, "{answer} leaves the buffer");
    (answer, buffer)
}

/// Asks the desk about a draft with a buffer that is as long.
fn answer_to(draft: &Case) -> Answer {
    let file = draft.to_bytes();
    ask(&file, file.len()).0
}

/// The case with other bytes in what the desk works out.
fn with_noise(case: &Case, mut noise: impl FnMut() -> Bytes32) -> Case {
    let mut draft = case.clone();
    for field in worked_out_fields(&mut draft) {
        *field = noise();
    }
    draft
}

/// Drafts of a case: with zero bytes, ones, and random bytes in what is worked out.
fn drafts_of(random: &mut Random, case: &Case) -> [Case; 3] {
    [
        with_noise(case, || [0; 32]),
        with_noise(case, || [255; 32]),
        with_noise(case, || random.bytes()),
    ]
}

/// The refusals of a case that no ledger decides.
fn refusals_of(case: &Case) -> Vec<Answer> {
    let mut refusals = all_refusals(&Ledger::zeroed(Vec::new(), Vec::new()), case);
    refusals.retain(|refusal| ![2, 3, 6, 8, 17].contains(&refusal.number));
    refusals
}

#[test]
fn an_accepted_case_is_written_back_byte_for_byte() {
    for seed in 0..5 {
        for mut shift in [Shift::busy(seed), Shift::elsewhere(seed)] {
            for edition in Edition::ALL {
                let case = shift.good_case();
                let case = in_edition(&mut shift.random, &case, edition);
                let file = case.to_bytes();
                for draft in drafts_of(&mut shift.random, &case) {
                    let written = ask(&draft.to_bytes(), file.len());
                    assert_eq!(written, (Answer::PASSED, file.clone()));
                }
                assert_eq!(judge(&mut shift.ledger, &file), Answer::PASSED);
                shift.purse.settle(&case);
            }
        }
    }
}

#[test]
fn the_cases_of_the_sample_bags_are_written_back_byte_for_byte() {
    let mut random = Random::new(2);
    let mut written = [0; 2];
    let folder = concat!(env!("CARGO_MANIFEST_DIR"), "/../../samples");
    for file in std::fs::read_dir(folder).expect("the folder of samples") {
        let bytes = std::fs::read(file.expect("a file").path()).unwrap_or_default();
        let cases = read_bag(&bytes).map_or(Vec::new(), |bag| bag.cases);
        let read = cases.into_iter().filter_map(Case::read);
        for case in read.filter(|case| refusals_of(case).is_empty()) {
            let file = case.to_bytes();
            let draft = with_noise(&case, || random.bytes()).to_bytes();
            assert_eq!(ask(&draft, file.len()), (Answer::PASSED, file));
            written[case.edition() as usize] += 1;
        }
    }
    assert!(written.iter().all(|times| *times > 1), "{written:?}");
}

/// Where the ten fields that are worked out start, in each edition. Each has 32
/// bytes.
const WORKED_OUT: [(Edition, [usize; 10]); 2] = [
    (
        Edition::First,
        [48, 80, 112, 144, 240, 272, 1_866, 2_934, 4_010, 4_114],
    ),
    (
        Edition::Second,
        [48, 80, 112, 144, 240, 272, 1_762, 2_830, 3_906, 4_010],
    ),
];

#[test]
fn all_else_is_in_the_case_as_it_was_in_the_draft() {
    let mut shift = Shift::busy(3);
    for (edition, starts) in WORKED_OUT {
        let case = shift.good_case();
        let case = in_edition(&mut shift.random, &case, edition);
        let draft = with_noise(&case, || [0; 32]).to_bytes();
        let (answer, written) = ask(&draft, draft.len());
        assert_eq!(answer, Answer::PASSED);
        for at in 0..draft.len() {
            let is_worked_out = starts
                .iter()
                .any(|start| (*start..start + 32).contains(&at));
            assert!(
                is_worked_out || written[at] == draft[at],
                "byte {at} of the {edition} edition"
            );
        }
        for start in starts {
            assert_eq!(draft[start..start + 32], [0; 32]);
            assert_ne!(written[start..start + 32], [0; 32], "{edition} {start}");
        }
    }
}

#[test]
fn each_field_is_worked_out_by_its_own_rule() {
    let mut shift = Shift::busy(4);
    for edition in Edition::ALL {
        let case = shift.good_case();
        let draft = in_edition(&mut shift.random, &case, edition);
        let draft = with_noise(&draft, || shift.random.bytes()).to_bytes();
        let (_, written) = ask(&draft, draft.len());
        let case = Case::read(&written).expect("a case");
        let nullifiers = case
            .old
            .each_ref()
            .map(|note| hashes::nullifier(&note.a_sk, &note.rho));
        let h_sig = hashes::h_sig(&case.seed, &nullifiers, &case.transaction_key);
        assert_eq!(case.nullifiers, nullifiers);
        for place in 0..2 {
            let (old, new) = (&case.old[place], &case.new[place]);
            assert_eq!(old.a_pk, hashes::address(&old.a_sk));
            assert_eq!(case.tags[place], hashes::tag(place, &old.a_sk, &h_sig));
            assert_eq!(new.rho, hashes::new_rho(place, &case.phi, &h_sig));
            let commitment = hashes::commitment(&new.a_pk, new.value.0, &new.rho, &new.r);
            assert_eq!(case.commitments[place], commitment);
        }
    }
}

#[test]
fn the_public_node_s_key_gets_its_address() {
    let mut shift = Shift::fresh(5, 4, 2);
    let key = "0bbba5712bf43c9df6a72f036266affbca9ca1c2499a931d817df1dd5e4a08d1";
    let digits = |i: usize| u8::from_str_radix(&key[2 * i..2 * i + 2], 16).expect("two digits");
    // Without value, so that its path is not asked for.
    let mut draft = shift.good_case();
    assert_eq!(draft.old[0].value, Amount::ZERO);
    draft.old[0].a_sk = std::array::from_fn(digits);
    let file = draft.to_bytes();
    let (answer, written) = ask(&file, file.len());
    assert_eq!(answer, Answer::PASSED);
    assert_eq!(
        hex(&Case::read(&written).expect("a case").old[0].a_pk),
        "4d3dc54738b98fc484cf84d0c914e60c92bcd23c3f4dfaa7f1c4496ac5f04d73"
    );
}

#[test]
fn what_the_desk_writes_only_a_ledger_refuses() {
    let mut written = 0;
    for seed in 0..3 {
        for mut shift in [Shift::busy(seed), Shift::elsewhere(seed)] {
            for bend in BENDS {
                let Some(bent) = shift.bent_case(bend) else {
                    continue;
                };
                let draft = bent.to_bytes();
                let (answer, file) = ask(&draft, draft.len());
                if answer.is_pass() {
                    let case = Case::read(&file).expect("a case");
                    assert_eq!(refusals_of(&case), [], "{}", bend.name);
                    written += 1;
                }
            }
        }
    }
    assert!(written > 200, "{written}");
}

#[test]
fn wrong_bytes_in_what_is_worked_out_are_mended() {
    let mut shift = Shift::busy(6);
    let mut mended = 0;
    for _ in 0..10 {
        for bend in BENDS {
            let case = shift.good_case();
            let Some(bent) = shift.bend(bend, case.clone()) else {
                continue;
            };
            let blank = |case: &Case| with_noise(case, || [0; 32]);
            if blank(&bent) == blank(&case) && bent != case {
                let draft = bent.to_bytes();
                let (answer, file) = ask(&draft, draft.len());
                assert_eq!((answer, file), (Answer::PASSED, case.to_bytes()));
                mended += 1;
            }
        }
    }
    assert!(mended > 200, "{mended}");
}

#[test]
fn cases_that_are_bent_for_an_answer_of_the_desk_s_get_it() {
    for seed in 0..3 {
        for mut shift in [Shift::busy(seed), Shift::elsewhere(seed)] {
            // By its nullifiers alone a draft is not refused.
            let is_meant = |number: u8| [4, 5, 9, 10, 11].contains(&number);
            for bend in BENDS.iter().filter(|bend| is_meant(bend.answer.number)) {
                let Some(bent) = shift.bent_case(bend) else {
                    continue;
                };
                for draft in drafts_of(&mut shift.random, &bent) {
                    assert_eq!(answer_to(&draft), bend.answer, "{}", bend.name);
                }
            }
        }
    }
}

#[test]
fn the_desk_gives_these_refusals_in_this_order() {
    let given: Vec<(u8, u8)> = rules()
        .map(|rule| (rule.answer.number, rule.answer.place))
        .collect();
    let expected = [
        (4, 0),
        (5, 1),
        (5, 2),
        (7, 0),
        (9, 1),
        (9, 2),
        (9, 3),
        (10, 1),
        (10, 2),
        (11, 0),
    ];
    assert_eq!(given, expected);
}

#[test]
fn draft_and_buffer_have_one_edition_s_length() {
    let mut shift = Shift::busy(7);
    let [first, second] = Edition::ALL.map(|edition| {
        let case = shift.good_case();
        in_edition(&mut shift.random, &case, edition).to_bytes()
    });
    for length in [0, 1, 4_105, 4_107, 4_158, 4_209, 4_211, 8_420] {
        for file in [&first, &second] {
            let mut draft = file.clone();
            draft.resize(length, 0);
            for buffer in [0, 4_106, 4_210, length] {
                assert_eq!(
                    ask(&draft, buffer).0,
                    Answer::new(1, 0),
                    "{length} {buffer}"
                );
            }
        }
    }
    for buffer in [0, 1, 4_105, 4_106, 4_107, 4_158, 4_209, 4_210, 4_211, 4_352] {
        for file in [&first, &second] {
            let expected = if buffer == file.len() { 0 } else { 1 };
            assert_eq!(ask(file, buffer).0, Answer::new(expected, 0), "{buffer}");
        }
    }
}

/// A right case over two leaves of 7 and 5 that puts 1 in.
fn plain_case(random: &mut Random) -> Case {
    let leaves = leaves_of(random, [7, 5]);
    case_over(random, leaves, 1, 0)
}

#[test]
fn public_values() {
    let mut random = Random::new(8);
    let all = MAX_MONEY.0;
    for (vpub_old, vpub_new, number, place) in [
        (0, 0, 0, 0),
        (all, 0, 0, 0),
        (0, all, 0, 0),
        (1, 1, 4, 0),
        (all + 1, 1, 4, 0),
        (1, all + 1, 4, 0),
        (all + 1, 0, 5, 1),
        (0, all + 1, 5, 2),
    ] {
        let leaves = leaves_of(&mut random, [all + 1, 5]);
        let case = case_over(&mut random, leaves, vpub_old, vpub_new);
        let answer = Answer::new(number, place);
        assert_eq!(answer_to(&case), answer, "{vpub_old} {vpub_new}");
    }
}

#[test]
fn nullifiers_are_equal_whatever_top_bits_the_keys_have() {
    let mut random = Random::new(9);
    let mut twice = plain_case(&mut random);
    twice.old[1] = twice.old[0].clone();
    assert!(balance(&mut random, &mut twice));
    assert_eq!(answer_to(&twice), Answer::new(7, 0));
    for bits in 1..16 {
        for place in [0, 1] {
            let mut topped = twice.clone();
            topped.old[place].a_sk[0] |= bits << 4;
            assert_eq!(answer_to(&topped), Answer::new(7, 0), "{bits} {place}");
        }
    }
    // The low four bits of the first byte are the key's own.
    let mut beside = twice;
    beside.old[1].a_sk[0] ^= 8;
    assert_eq!(answer_to(&beside), Answer::new(10, 2));
}

#[test]
fn equal_nullifiers_in_the_draft_are_not_looked_at() {
    let mut random = Random::new(10);
    let mut draft = plain_case(&mut random);
    draft.nullifiers[1] = draft.nullifiers[0];
    assert_eq!(answer_to(&draft), Answer::PASSED);
}

#[test]
fn keys_positions_and_phi() {
    let case = plain_case(&mut Random::new(11));
    for bits in 1..16 {
        for place in [1, 2] {
            let mut topped = case.clone();
            topped.old[place - 1].a_sk[0] |= bits << 4;
            assert_eq!(answer_to(&topped), Answer::new(9, place as u8), "{bits}");
        }
        let mut topped = case.clone();
        topped.phi[0] |= bits << 4;
        assert_eq!(answer_to(&topped), Answer::new(9, 3), "{bits}");
    }
    for position in [FULL, FULL + 1, 1 << 31, u32::MAX] {
        for place in [1, 2] {
            let mut beyond = case.clone();
            beyond.old[place - 1].position = Position(position);
            assert_eq!(
                answer_to(&beyond),
                Answer::new(9, place as u8),
                "{position}"
            );
        }
    }
}

#[test]
fn the_highest_key_phi_and_position_are_taken() {
    let mut random = Random::new(12);
    for place in [0, 1] {
        let mut case = plain_case(&mut random);
        for note in &mut case.old {
            note.a_sk = [255; 32];
            note.a_sk[0] = 0x0f;
            note.a_pk = hashes::address(&note.a_sk);
            note.position = Position(FULL - 1);
        }
        // The other one has no value, and so its path may lead anywhere.
        case.old[1 - place].value = Amount::ZERO;
        case.phi = [255; 32];
        case.phi[0] = 0x0f;
        let note = &case.old[place];
        case.anchor = climb(&note.commitment(), note.position, &note.path);
        assert!(balance(&mut random, &mut case));
        assert_eq!(answer_to(&case), Answer::PASSED);
        case.old[1 - place].value = Amount(1);
        assert!(balance(&mut random, &mut case));
        assert_eq!(answer_to(&case), Answer::new(10, 2 - place as u8));
    }
}

#[test]
fn each_bit_of_a_path_and_of_the_anchor_counts_where_there_is_value() {
    let case = plain_case(&mut Random::new(13));
    for (level, byte) in (0..DEPTH).flat_map(|level| [(level, 0), (level, 31)]) {
        for place in [0, 1] {
            let mut strayed = case.clone();
            strayed.old[place].path[level][byte] ^= 1;
            let answer = Answer::new(10, place as u8 + 1);
            assert_eq!(answer_to(&strayed), answer, "{level} {byte}");
        }
    }
    for byte in 0..32 {
        let mut strayed = case.clone();
        strayed.anchor[byte] ^= 0x80;
        assert_eq!(answer_to(&strayed), Answer::new(10, 1), "{byte}");
    }
    for bit in 0..29 {
        let mut strayed = case.clone();
        strayed.old[1].position.0 ^= 1 << bit;
        assert_eq!(answer_to(&strayed), Answer::new(10, 2), "{bit}");
    }
}

#[test]
fn a_path_has_to_lead_from_the_address_of_the_key_and_not_from_the_draft_s() {
    let mut random = Random::new(14);
    for place in [0, 1] {
        let mut case = plain_case(&mut random);
        let mut stranger = Note::random(&mut random, Amount(7));
        stranger.a_pk = random.bytes();
        let old = stranger.nowhere(&mut random);
        case.anchor = climb(&old.commitment(), old.position, &old.path);
        case.old[place] = old;
        case.old[1 - place].value = Amount::ZERO;
        assert!(balance(&mut random, &mut case));
        assert_eq!(answer_to(&case), Answer::new(10, place as u8 + 1));
    }
}

#[test]
fn sums() {
    let mut random = Random::new(15);
    let most = u64::MAX;
    for (old, new, number) in [
        ([7_000, 3_000], [10_000, 0], 0),
        ([7_000, 3_000], [10_000, 1], 11),
        ([7_000, 3_000], [9_999, 0], 11),
        ([most, 0], [most - 1, 1], 0),
        ([1, most - 1], [0, most], 0),
        ([most, 1], [most, 1], 11),
        ([most, 1], [0, 0], 11),
        ([most, most], [most, most], 11),
    ] {
        let (old_notes, anchor) = leaves_of(&mut random, old);
        let plan = Plan {
            vpub_old: Amount::ZERO,
            vpub_new: Amount::ZERO,
            anchor,
            old: old_notes,
            new: new.map(|value| (random.bytes(), Amount(value))),
        };
        let case = wallet::write_case(&mut random, plan);
        assert_eq!(answer_to(&case), Answer::new(number, 0), "{old:?} {new:?}");
    }
}
