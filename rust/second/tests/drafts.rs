//! What the tape maker promises of its drafts, and which wrong desks they find.

mod common;

use std::ops::Range;

use common::tapes::{entries, lines_of, tapes};
use second::answer::Answer;
use second::bytes::Bytes32;
use second::case::{Case, Edition, Proof, MAX_MONEY, MAX_SUM};
use second::desk::{rules, worked_out, worked_out_fields};
use second::hashes;
use second::judge::{all_refusals, Rule};
use second::ledger::Ledger;
use second::tape::{judged_file, play};
use second::tree::{climb, FULL};
use second::wallet::set_commitments;

/// The refusals of the desk, those of lengths first, and acceptance.
fn desk_answers() -> Vec<Answer> {
    let others = [Answer::PASSED, Answer::new(1, 0)];
    others
        .into_iter()
        .chain(rules().map(|rule| rule.answer))
        .collect()
}

#[test]
fn each_answer_of_the_desk_is_made_in_each_edition() {
    for (seed, tape) in tapes() {
        for answer in desk_answers() {
            for edition in Edition::ALL {
                let purpose = format!("desk {answer}");
                let times = tape.coverage.times_made_in(edition, &purpose);
                assert!(times > 0, "seed {seed}: {purpose} ({edition})");
            }
        }
    }
}

/// What a desk run says once in each edition.
type Run = (&'static str, &'static [&'static str]);

/// The runs for the desk that come in both editions: what the desk and the cases
/// that it writes are answered.
const DESK_RUNS: [Run; 19] = [
    ("desk-writes", &["desk 0 0", "case 0 0"]),
    (
        "desk-writes-over-any-noise",
        &[
            "desk 0 0", "case 8 1", "desk 0 0", "case 8 1", "desk 0 0", "case 8 1", "desk 0 0",
            "case 8 1",
        ],
    ),
    (
        "desk-writes-at-the-edges",
        &[
            "desk 0 0", "case 0 0", "desk 0 0", "case 0 0", "desk 0 0", "case 0 0",
        ],
    ),
    (
        "desk-writes-all-money",
        &["desk 0 0", "case 0 0", "desk 0 0", "case 0 0"],
    ),
    (
        "desk-writes-nearly-equal-notes",
        &["desk 0 0", "case 0 0", "desk 0 0", "case 0 0"],
    ),
    ("desk-refuses-4", &["desk 4 0"]),
    ("desk-refuses-4-before-5", &["desk 4 0", "desk 4 0"]),
    ("desk-refuses-5", &["desk 5 1", "desk 5 2"]),
    ("desk-refuses-5-before-7", &["desk 5 1", "desk 5 2"]),
    ("desk-refuses-7", &["desk 7 0"]),
    ("desk-refuses-7-before-9", &["desk 7 0", "desk 7 0"]),
    (
        "desk-refuses-9",
        &[
            "desk 9 1", "desk 9 1", "desk 9 1", "desk 9 2", "desk 9 2", "desk 9 2", "desk 9 3",
            "desk 9 3",
        ],
    ),
    ("desk-refuses-9-before-9", &["desk 9 1", "desk 9 2"]),
    ("desk-refuses-9-before-10", &["desk 9 3"]),
    (
        "desk-refuses-10",
        &[
            "desk 10 1",
            "desk 10 1",
            "desk 10 1",
            "desk 10 2",
            "desk 10 2",
            "desk 10 2",
        ],
    ),
    (
        "desk-refuses-10-by-the-address",
        &["desk 10 1", "desk 10 2"],
    ),
    ("desk-refuses-10-before-10", &["desk 10 1"]),
    ("desk-refuses-10-before-11", &["desk 10 2"]),
    ("desk-refuses-11", &["desk 11 0", "desk 11 0", "desk 11 0"]),
];

/// What a line says of the desk or of a case, the hash left out.
fn said(line: &str) -> Option<String> {
    let mut words = line.split(' ');
    let [word, number, place] = [(); 3].map(|()| words.next().unwrap_or_default());
    let is_said = ["desk", "case"].contains(&word);
    is_said.then(|| format!("{word} {number} {place}"))
}

fn said_in(lines: &[String], run: &str) -> Vec<String> {
    lines_of(lines, run).filter_map(said).collect()
}

#[test]
fn a_tape_of_600_entries_shows_the_answers_of_its_desk_runs() {
    for (seed, tape) in tapes() {
        for edition in Edition::ALL {
            for (run, expected) in DESK_RUNS {
                let run = format!("{run}-{edition}");
                assert_eq!(said_in(&tape.lines, &run), expected, "seed {seed}: {run}");
            }
            let run = format!("desk-refuses-1-{edition}");
            let said = said_in(&tape.lines, &run);
            assert_eq!(said, ["desk 1 0"; 9], "seed {seed}: {run}");
        }
        let said = said_in(&tape.lines, "desk-refuses-1-of-neither-length");
        assert_eq!(said, ["desk 1 0"; 4], "seed {seed}");
    }
}

#[test]
fn any_noise_gives_the_same_hash() {
    for (seed, tape) in tapes() {
        for edition in Edition::ALL {
            let runs = ["desk-writes", "desk-writes-over-any-noise"];
            let lines = runs.map(|run| lines_of(&tape.lines, &format!("{run}-{edition}")));
            let written = |line: &'static str| line.strip_prefix("desk 0 0 ");
            let mut hashes: Vec<&str> = lines.into_iter().flatten().filter_map(written).collect();
            assert_eq!(hashes.len(), 5, "seed {seed}");
            hashes.dedup();
            assert_eq!(hashes.len(), 1, "seed {seed}");
        }
    }
}

#[test]
fn behind_the_desk_s_line_stand_those_of_the_case_that_it_wrote() {
    for (seed, tape) in tapes() {
        let is_of_case = |line: &&String| !line.starts_with("desk 0 0 ");
        let lines: Vec<&String> = tape.lines.iter().filter(is_of_case).collect();
        let judged = play(&tape.judged);
        assert!(lines.into_iter().eq(&judged), "seed {seed}");
    }
}

/// Whether the desk could have written a case.
fn is_of_desk(case: &Case) -> bool {
    let refusals = all_refusals(&Ledger::zeroed(Vec::new(), Vec::new()), case);
    let is_of_ledger = |refusal: &Answer| [2, 3, 6, 8, 17].contains(&refusal.number);
    refusals.iter().all(is_of_ledger)
}

#[test]
fn half_of_the_cases_that_the_desk_could_have_written_come_as_drafts_with_noise() {
    for (seed, tape) in tapes() {
        let (mut drafts, mut cases, mut is_desk_run) = (0, 0, false);
        for (kind, body) in entries(&tape.bytes) {
            if kind == b'N' {
                is_desk_run = body.starts_with(b"desk-");
            }
            let file = judged_file(kind, body).filter(|_| !is_desk_run);
            let Some(mut case) = file.and_then(|file| Case::read(&file)) else {
                continue;
            };
            drafts += usize::from(kind == b'D');
            cases += usize::from(kind == b'C' && is_of_desk(&case));
            if kind == b'D' {
                let mut draft = Case::read(&body[4..]).expect("a draft that was written");
                let fields = worked_out_fields(&mut draft).into_iter();
                let is_noise = fields
                    .zip(worked_out_fields(&mut case))
                    .all(|(a, b)| a != b);
                assert!(is_noise, "seed {seed}");
            }
        }
        let is_half = 3 * drafts > drafts + cases && 3 * cases > drafts + cases;
        assert!(is_half, "seed {seed}: {drafts} drafts and {cases} cases");
    }
}

/// What came to the desk.
struct Drafted {
    draft: Vec<u8>,
    buffer: usize,
}

/// What comes to the desk in the runs that are for it.
fn drafted(tape: &[u8]) -> Vec<Drafted> {
    let (mut is_desk_run, mut drafted) = (false, Vec::new());
    for (kind, body) in entries(tape) {
        if kind == b'N' {
            is_desk_run = body.starts_with(b"desk-");
        }
        if kind == b'D' && is_desk_run {
            let (length, draft) = body.split_first_chunk().expect("a length");
            drafted.push(Drafted {
                draft: draft.to_vec(),
                buffer: u32::from_le_bytes(*length) as usize,
            });
        }
    }
    drafted
}

/// The drafts of this edition in the runs for the desk, with buffers as long, each
/// with the case that is worked out of it.
fn worked_out_in(edition: Edition, tape: &[u8]) -> Vec<(Case, Case)> {
    let mut drafted = drafted(tape);
    drafted.retain(|drafted| [drafted.draft.len(), drafted.buffer] == [edition.case_bytes(); 2]);
    let drafts = drafted
        .into_iter()
        .filter_map(|drafted| Case::read(&drafted.draft));
    drafts
        .map(|draft| (draft.clone(), worked_out(draft)))
        .collect()
}

/// Whether a rule of the desk's applies to a case that is worked out.
fn applies(rule: &Rule, case: &Case) -> bool {
    (rule.applies)(&Ledger::zeroed(Vec::new(), Vec::new()), case)
}

#[test]
fn the_desk_runs_of_a_tape_find_desks_that_drop_or_swap_a_rule() {
    let right: Vec<&Rule> = rules().collect();
    for (seed, tape) in tapes() {
        for edition in Edition::ALL {
            let drafts = worked_out_in(edition, &tape.bytes);
            let is_told = |order: &[&Rule]| {
                let first = |order: &[&Rule], case: &Case| {
                    let mut order = order.iter();
                    order.find(|rule| applies(rule, case)).map(|r| r.answer)
                };
                drafts
                    .iter()
                    .any(|(_, case)| first(order, case) != first(&right, case))
            };
            for (index, rule) in right.iter().enumerate() {
                let mut dropped = right.clone();
                dropped.remove(index);
                let name = format!("seed {seed}: {}, {edition}", rule.answer);
                assert!(is_told(&dropped), "{name}, dropped");
                if index > 0 {
                    let mut swapped = right.clone();
                    swapped.swap(index - 1, index);
                    // Both public values cannot be too high without refusal 4.
                    let is_exempt = rule.answer == Answer::new(5, 2);
                    assert_eq!(is_told(&swapped), !is_exempt, "{name}, earlier");
                }
            }
        }
    }
}

/// When a wrong desk gives a refusal, by the draft and the case worked out of it.
type Wrongly = fn(&Case, &Case) -> bool;

/// Where a path leads from this address, as far as it is seen, and the anchor.
fn strays(case: &Case, which: usize, a_pk: &Bytes32, seen: Range<usize>) -> bool {
    let note = &case.old[which];
    let leaf = hashes::commitment(a_pk, note.value.0, &note.rho, &note.r);
    climb(&leaf, note.position, &note.path)[seen.clone()] != case.anchor[seen]
}

/// The same from its own address.
fn strays_itself(case: &Case, which: usize, seen: Range<usize>) -> bool {
    strays(case, which, &case.old[which].a_pk, seen)
}

/// Whether the old notes are one, as far as the first bytes of their keys are seen.
fn is_one_note(case: &Case, seen: u8) -> bool {
    let [one, other] = &case.old;
    let first = (one.a_sk[0] ^ other.a_sk[0]) & seen;
    first == 0 && one.a_sk[1..] == other.a_sk[1..] && one.rho == other.rho
}

/// Conditions that are wrong, each with its number, its place and its name.
const WRONG_CONDITIONS: [(u8, u8, &str, Wrongly); 32] = [
    (4, 0, "one is nonzero", |_, case| {
        case.vpub_old.0 != 0 || case.vpub_new.0 != 0
    }),
    (5, 1, "all money", |_, case| case.vpub_old >= MAX_MONEY),
    (5, 1, "above one more", |_, case| {
        case.vpub_old.0 > MAX_MONEY.0 + 1
    }),
    (5, 2, "all money", |_, case| case.vpub_new >= MAX_MONEY),
    (5, 2, "above one more", |_, case| {
        case.vpub_new.0 > MAX_MONEY.0 + 1
    }),
    (7, 0, "by the draft's nullifiers", |draft, _| {
        draft.nullifiers[0] == draft.nullifiers[1]
    }),
    (7, 0, "by whole keys", |_, case| is_one_note(case, 0xff)),
    (7, 0, "by keys without their highest bit", |_, case| {
        is_one_note(case, 0x07)
    }),
    (7, 0, "by rho alone", |_, case| {
        case.old[0].rho == case.old[1].rho
    }),
    (7, 0, "by keys alone", |_, case| {
        case.old[0].a_sk == case.old[1].a_sk
    }),
    (9, 1, "no key", |_, case| case.old[0].position.0 >= FULL),
    (9, 1, "no position", |_, case| case.old[0].a_sk[0] > 0x0f),
    (9, 1, "a key of 0x0F", |_, case| {
        case.old[0].a_sk[0] >= 0x0f || case.old[0].position.0 >= FULL
    }),
    (9, 1, "the last leaf", |_, case| {
        case.old[0].a_sk[0] > 0x0f || case.old[0].position.0 >= FULL - 1
    }),
    (9, 1, "the first position past it allowed", |_, case| {
        case.old[0].a_sk[0] > 0x0f || case.old[0].position.0 > FULL
    }),
    (9, 2, "no key", |_, case| case.old[1].position.0 >= FULL),
    (9, 2, "no position", |_, case| case.old[1].a_sk[0] > 0x0f),
    (9, 2, "a key of 0x0F", |_, case| {
        case.old[1].a_sk[0] >= 0x0f || case.old[1].position.0 >= FULL
    }),
    (9, 2, "the last leaf", |_, case| {
        case.old[1].a_sk[0] > 0x0f || case.old[1].position.0 >= FULL - 1
    }),
    (9, 2, "the first position past it allowed", |_, case| {
        case.old[1].a_sk[0] > 0x0f || case.old[1].position.0 > FULL
    }),
    (9, 3, "a phi of 0x0F", |_, case| case.phi[0] >= 0x0f),
    (10, 1, "from the draft's address", |draft, case| {
        case.old[0].value.0 != 0 && strays(case, 0, &draft.old[0].a_pk, 0..32)
    }),
    (10, 2, "from the draft's address", |draft, case| {
        case.old[1].value.0 != 0 && strays(case, 1, &draft.old[1].a_pk, 0..32)
    }),
    (10, 1, "without value, too", |_, case| {
        strays_itself(case, 0, 0..32)
    }),
    (10, 2, "without value, too", |_, case| {
        strays_itself(case, 1, 0..32)
    }),
    (11, 0, "no ceiling", |_, case| {
        case.value_in() != case.value_out()
    }),
    (11, 0, "the ceiling alone", |_, case| {
        case.value_in() > MAX_SUM
    }),
    (11, 0, "sums that wrap", |_, case| {
        case.value_in() as u64 != case.value_out() as u64
    }),
    (11, 0, "below the ceiling, not at it", |_, case| {
        case.value_in() != case.value_out() || case.value_in() >= MAX_SUM
    }),
    (11, 0, "one above the ceiling", |_, case| {
        case.value_in() != case.value_out() || case.value_in() > MAX_SUM + 1
    }),
    (11, 0, "no public value that goes in", |_, case| {
        case.value_in() - case.vpub_old.whole() != case.value_out()
    }),
    (11, 0, "no public value that comes out", |_, case| {
        case.value_in() != case.value_out() - case.vpub_new.whole()
    }),
];

/// Whether a desk that has another condition of one refusal answers otherwise.
fn is_found(drafts: &[(Case, Case)], answer: Answer, other: impl Fn(&Case, &Case) -> bool) -> bool {
    drafts.iter().any(|(draft, case)| {
        let right = rules().find(|rule| applies(rule, case));
        let wrong = rules().find(|rule| match rule.answer == answer {
            true => other(draft, case),
            false => applies(rule, case),
        });
        right.map(|rule| rule.answer) != wrong.map(|rule| rule.answer)
    })
}

#[test]
fn the_desk_runs_of_a_tape_find_wrong_conditions_in_each_edition() {
    for (seed, tape) in tapes() {
        for edition in Edition::ALL {
            let drafts = worked_out_in(edition, &tape.bytes);
            let by_low_bits = |_: &Case, case: &Case| is_one_note(case, 0x0f);
            assert!(!is_found(&drafts, Answer::new(7, 0), by_low_bits), "7");
            for (number, place, name, other) in WRONG_CONDITIONS {
                let is_found = is_found(&drafts, Answer::new(number, place), other);
                assert!(
                    is_found,
                    "seed {seed}: {number} {place} by {name}, {edition}"
                );
            }
        }
    }
}

/// The desk's drafts of both editions.
fn all_worked_out(tape: &[u8]) -> Vec<(Case, Case)> {
    let in_each = Edition::ALL.map(|edition| worked_out_in(edition, tape));
    in_each.concat()
}

#[test]
fn the_desk_runs_of_a_tape_find_each_top_bit_that_is_left_out() {
    for (seed, tape) in tapes() {
        let drafts = all_worked_out(&tape.bytes);
        for left_out in [0x80, 0x40, 0x20, 0x10] {
            let has_top_bits = |key: &Bytes32| key[0] & (0xf0 ^ left_out) != 0;
            for which in [0, 1] {
                let misformed = |_: &Case, case: &Case| {
                    let note = &case.old[which];
                    has_top_bits(&note.a_sk) || note.position.0 >= FULL
                };
                let answer = Answer::new(9, which as u8 + 1);
                let is_found = is_found(&drafts, answer, misformed);
                assert!(is_found, "seed {seed}: {answer} {left_out}");
            }
            let misformed = |_: &Case, case: &Case| has_top_bits(&case.phi);
            let is_found = is_found(&drafts, Answer::new(9, 3), misformed);
            assert!(is_found, "seed {seed}: phi {left_out}");
        }
    }
}

#[test]
fn the_desk_runs_of_a_tape_find_roots_that_are_compared_in_part() {
    for (seed, tape) in tapes() {
        let drafts = all_worked_out(&tape.bytes);
        for which in [0, 1] {
            for seen in [0..31, 1..32] {
                let other = |_: &Case, case: &Case| {
                    case.old[which].value.0 != 0 && strays_itself(case, which, seen.clone())
                };
                let answer = Answer::new(10, which as u8 + 1);
                let is_found = is_found(&drafts, answer, other);
                assert!(is_found, "seed {seed}: {answer} {seen:?}");
            }
        }
    }
}

/// What a wrong desk writes of a draft, by the draft and what it should write.
type Writing = fn(&Case, Case) -> Case;

/// Ways to write that are wrong, each with its name.
const WRONG_WRITINGS: [(&str, Writing); 14] = [
    ("has hSig of the draft's nullifiers", |draft, mut case| {
        let h_sig = hashes::h_sig(&case.seed, &draft.nullifiers, &case.transaction_key);
        for which in [0, 1] {
            case.tags[which] = hashes::tag(which, &case.old[which].a_sk, &h_sig);
        }
        case
    }),
    ("has commitments to the draft's rho", |draft, mut case| {
        for which in [0, 1] {
            let mut note = case.new[which].clone();
            note.rho = draft.new[which].rho;
            case.commitments[which] = note.commitment();
        }
        case
    }),
    ("has the nullifiers exchanged", |_, mut case| {
        case.nullifiers.swap(0, 1);
        case
    }),
    ("has the tags exchanged", |_, mut case| {
        case.tags.swap(0, 1);
        case
    }),
    ("has one tag made as the other", |_, mut case| {
        case.tags[1] = hashes::tag(0, &case.old[1].a_sk, &case.h_sig());
        case
    }),
    ("has one rho made as the other", |_, mut case| {
        case.new[1].rho = hashes::new_rho(0, &case.phi, &case.h_sig());
        set_commitments(&mut case);
        case
    }),
    ("has one address in both places", |_, mut case| {
        case.old[1].a_pk = case.old[0].a_pk;
        case
    }),
    ("has the commitments exchanged", |_, mut case| {
        case.commitments.swap(0, 1);
        case
    }),
    ("loses the ephemeral key", |_, mut case| {
        case.ephemeral_key = [0; 32];
        case
    }),
    ("loses the proof", |_, case| {
        let proof = Proof::zeroed(case.edition());
        case.with_proof(proof)
    }),
    ("loses a ciphertext", |_, mut case| {
        case.ciphertexts[1] = [0; 601];
        case
    }),
    ("loses a path", |_, mut case| {
        case.old[1].path = [[0; 32]; 29];
        case
    }),
    (
        "clears the position of a note without value",
        |_, mut case| {
            for note in &mut case.old {
                note.position.0 *= u32::from(note.value.0 != 0);
            }
            case
        },
    ),
    ("drops the top bits of a trapdoor", |_, mut case| {
        case.new.iter_mut().for_each(|note| note.r[0] &= 0x0f);
        case
    }),
];

#[test]
fn the_desk_runs_of_a_tape_find_what_is_written_wrongly_in_each_edition() {
    for (seed, tape) in tapes() {
        for edition in Edition::ALL {
            let mut written = worked_out_in(edition, &tape.bytes);
            written.retain(|(_, case)| !rules().any(|rule| applies(rule, case)));
            let is_told = |writing: &dyn Fn(&Case, Case) -> Case| {
                let mut written = written.iter();
                written.any(|(draft, case)| writing(draft, case.clone()) != *case)
            };
            assert!(!is_told(&|_, case| case), "seed {seed}: the right one");
            for (name, writing) in WRONG_WRITINGS {
                assert!(is_told(&writing), "seed {seed}: {name}, {edition}");
            }
            for field in 0..10 {
                let keeps = |draft: &Case, mut case: Case| {
                    let mut draft = draft.clone();
                    *worked_out_fields(&mut case)[field] = *worked_out_fields(&mut draft)[field];
                    case
                };
                assert!(is_told(&keeps), "seed {seed}: keeps {field}, {edition}");
            }
        }
    }
}

#[test]
fn the_desk_runs_of_a_tape_find_desks_that_write_where_they_refuse() {
    for (seed, tape) in tapes() {
        for edition in Edition::ALL {
            let drafts = worked_out_in(edition, &tape.bytes);
            for Rule { answer, .. } in rules() {
                let is_refused_so = |(_, case): &(Case, Case)| {
                    rules().find(|rule| applies(rule, case)).map(|r| r.answer) == Some(*answer)
                };
                let is_found = drafts.iter().any(is_refused_so);
                assert!(is_found, "seed {seed}: {answer}, {edition}");
            }
        }
    }
}

/// Whether a desk takes a draft and a buffer of these lengths.
type Taking = fn(usize, usize) -> bool;

fn is_right(length: usize) -> bool {
    Edition::of_length(length).is_some()
}

/// Ways to take lengths that are wrong, each with its name.
const WRONG_LENGTHS: [(&str, Taking); 17] = [
    ("takes any buffer", |draft, _| is_right(draft)),
    ("takes any draft", |_, buffer| is_right(buffer)),
    ("takes what is as long", |draft, buffer| draft == buffer),
    ("takes the first edition only", |draft, buffer| {
        [draft, buffer] == [4_210; 2]
    }),
    ("takes the second edition only", |draft, buffer| {
        [draft, buffer] == [4_106; 2]
    }),
    ("takes a buffer of either edition", |draft, buffer| {
        is_right(draft) && is_right(buffer)
    }),
    ("takes a longer buffer", |draft, buffer| {
        is_right(draft) && buffer >= draft
    }),
    ("takes a shorter buffer", |draft, buffer| {
        is_right(draft) && buffer <= draft
    }),
    ("takes a buffer that is a byte longer", |draft, buffer| {
        is_right(draft) && (buffer == draft || buffer == draft + 1)
    }),
    ("takes a buffer that is a byte shorter", |draft, buffer| {
        is_right(draft) && (buffer == draft || buffer + 1 == draft)
    }),
    ("takes a buffer of no length", |draft, buffer| {
        is_right(draft) && (buffer == draft || buffer == 0)
    }),
    ("takes a longer draft", |draft, buffer| {
        is_right(buffer) && draft >= buffer
    }),
    ("takes a shorter draft", |draft, buffer| {
        is_right(buffer) && draft <= buffer
    }),
    ("takes a draft that is a byte longer", |draft, buffer| {
        is_right(buffer) && (draft == buffer || draft == buffer + 1)
    }),
    ("takes a draft that is a byte shorter", |draft, buffer| {
        is_right(buffer) && (draft == buffer || draft + 1 == buffer)
    }),
    ("takes what lies between the editions", |draft, buffer| {
        draft == buffer && (4_106..=4_210).contains(&draft)
    }),
    ("takes nothing for a case", |draft, buffer| {
        draft == buffer && (draft == 0 || is_right(draft))
    }),
];

#[test]
fn the_desk_runs_of_a_tape_find_lengths_that_are_wrongly_taken_or_not() {
    for (seed, tape) in tapes() {
        let drafted = drafted(&tape.bytes);
        let is_found = |taking: Taking| {
            drafted.iter().any(|drafted| {
                let is_taken =
                    is_right(drafted.draft.len()) && drafted.draft.len() == drafted.buffer;
                taking(drafted.draft.len(), drafted.buffer) != is_taken
            })
        };
        for (name, taking) in WRONG_LENGTHS {
            assert!(is_found(taking), "seed {seed}: a desk that {name}");
        }
    }
}

#[test]
fn the_desk_runs_of_a_tape_find_desks_that_ask_for_lengths_too_late() {
    for (seed, tape) in tapes() {
        let mut drafted = drafted(&tape.bytes);
        drafted.retain(|drafted| drafted.draft.len() >= 16);
        for edition in Edition::ALL {
            let right = edition.case_bytes();
            let has_both = |drafted: &Drafted| {
                let is_zero = |at: usize| drafted.draft[at..at + 8] == [0; 8];
                !is_zero(0) && !is_zero(8)
            };
            let mut both = drafted.iter().filter(|drafted| has_both(drafted));
            let is_draft_wrong = |drafted: &Drafted| drafted.draft.len() == right - 1;
            let is_buffer_wrong =
                |drafted: &Drafted| drafted.draft.len() == right && drafted.buffer != right;
            assert!(both.clone().any(is_draft_wrong), "seed {seed}: {edition}");
            assert!(both.any(is_buffer_wrong), "seed {seed}: {edition}");
        }
    }
}
