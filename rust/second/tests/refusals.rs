//! Every refusal of a case, by number and place, and what acceptance does.

mod common;

use std::collections::BTreeSet;

use common::Shift;
use second::answer::{Answer, Row, SPENT};
use second::bytes::Bytes32;
use second::case::{Case, Edition};
use second::judge::{all_refusals, judge, RULES};
use second::ledger::{Ledger, ROW_BYTES};
use second::maker::bends::{bend_named, Bend, BENDS};
use second::maker::tampers::TAMPERS;
use second::tree::Tree;
use second::wallet::in_edition;

/// Judges a case, and checks that a refusal changes no byte and that the row is
/// as it has to be.
fn judge_checked(ledger: &mut Ledger, file: &[u8]) -> Answer {
    let before = ledger.clone();
    let answer = judge(ledger, file);
    if !answer.is_pass() {
        assert_eq!(*ledger, before, "a refusal must leave the ledger alone");
    }
    check_row(&before, file, answer);
    answer
}

/// With refusal 8 the bytes of the row that it names are those of the nullifier
/// at its place. Every other answer has zero there.
fn check_row(ledger: &Ledger, file: &[u8], answer: Answer) {
    if answer.number != SPENT {
        assert_eq!(answer.row, Row(0), "{answer} names no row");
        assert_eq!(answer.named_row(), None);
        return;
    }
    let case = Case::read(file).expect("a case that was looked for");
    let nullifier = case.nullifiers[usize::from(answer.place) - 1];
    let start = answer.row.0 as usize * ROW_BYTES;
    assert!(answer.row.0 < ledger.spent, "the row is in use");
    assert_eq!(ledger.table[start..start + ROW_BYTES], nullifier);
    assert_eq!(answer.named_row(), Some(answer.row));
}

/// Ledgers on which each bend can be made, with cases bent in that way.
fn bent_cases(bend: &Bend) -> Vec<(Ledger, Case)> {
    let mut made = Vec::new();
    for seed in 0..4 {
        for mut shift in [Shift::busy(seed), Shift::elsewhere(seed)] {
            for _ in 0..30 {
                if let Some(case) = shift.bent_case(bend) {
                    made.push((shift.ledger.clone(), case));
                }
            }
        }
    }
    made
}

#[test]
fn every_bent_case_gets_the_answer_it_was_bent_for() {
    for bend in BENDS {
        let made = bent_cases(bend);
        for edition in Edition::ALL {
            let is_made = made.iter().any(|(_, case)| case.edition() == edition);
            assert!(is_made, "never made: {}, {edition} edition", bend.name);
        }
        for (mut ledger, case) in made {
            let answer = judge_checked(&mut ledger, &case.to_bytes());
            assert_eq!(answer.without_row(), bend.answer, "{}", bend.name);
        }
    }
}

#[test]
fn no_bend_changes_the_edition() {
    let mut shift = Shift::busy(12);
    for bend in BENDS {
        for edition in Edition::ALL {
            let case = shift.good_case();
            let case = in_edition(&mut shift.random, &case, edition);
            if let Some(bent) = shift.bend(bend, case) {
                assert_eq!(bent.edition(), edition, "{}", bend.name);
            }
        }
    }
}

/// A case in the other edition, with other carried bytes.
fn in_other_edition(shift: &mut Shift, case: &Case) -> Case {
    let mut other = in_edition(&mut shift.random, case, case.edition().other());
    other.ephemeral_key = shift.random.bytes();
    other.ciphertexts = [shift.random.bytes(), shift.random.bytes()];
    other
}

#[test]
fn the_same_case_in_the_other_edition_gets_the_same_answer_and_leaves_the_same_ledger() {
    let mut shift = Shift::busy(13);
    let mut accepted = 0;
    for bend in BENDS {
        for (ledger, case) in bent_cases(bend).into_iter().step_by(15) {
            let other = in_other_edition(&mut shift, &case);
            let (mut one, mut another) = (ledger.clone(), ledger);
            let answer = judge_checked(&mut one, &case.to_bytes());
            assert_eq!(judge_checked(&mut another, &other.to_bytes()), answer);
            assert_eq!(one, another, "{}", bend.name);
            if answer.is_pass() {
                accepted += 1;
                let again = judge_checked(&mut one, &other.to_bytes());
                assert_eq!(again.without_row(), Answer::new(8, 1));
            }
        }
    }
    assert!(accepted > 20, "{accepted}");
}

#[test]
fn a_row_goes_with_refusal_8_alone() {
    let mut numbers = BTreeSet::new();
    for bend in BENDS {
        for (ledger, case) in bent_cases(bend) {
            for refusal in all_refusals(&ledger, &case) {
                check_row(&ledger, &case.to_bytes(), refusal);
                numbers.insert(refusal.number);
            }
        }
    }
    assert_eq!(numbers, (4..=17).collect());
}

/// A good case with these nullifiers copied in.
fn with_nullifiers(shift: &mut Shift, rows: [Option<Bytes32>; 2]) -> Case {
    let mut case = shift.good_case();
    for (nullifier, row) in case.nullifiers.iter_mut().zip(rows) {
        *nullifier = row.unwrap_or(*nullifier);
    }
    case
}

#[test]
fn refusal_8_names_the_row_of_the_nullifier_at_its_place() {
    let mut shift = Shift::busy(10);
    let rows = shift.ledger.spent_rows().to_vec();
    let mut answer = |rows: [Option<Bytes32>; 2]| {
        let file = with_nullifiers(&mut shift, rows).to_bytes();
        judge_checked(&mut shift.ledger, &file)
    };
    assert_eq!(rows.len(), 14);
    for (index, row) in rows.iter().enumerate() {
        let named = Row(index as u64);
        assert_eq!(answer([Some(*row), None]), Answer::spent(1, named));
        assert_eq!(answer([None, Some(*row)]), Answer::spent(2, named));
        let other = rows[(index + 5) % rows.len()];
        assert_eq!(answer([Some(*row), Some(other)]), Answer::spent(1, named));
        let twice = [Some(*row), Some(*row)];
        assert_eq!(answer(twice), Answer::new(7, 0), "7 names no row");
    }
}

#[test]
fn a_spent_nullifier_s_row_is_not_told_where_the_ledger_is_refused() {
    let mut shift = Shift::busy(11);
    let last = shift.ledger.spent_rows().last().copied();
    let file = with_nullifiers(&mut shift, [last, None]).to_bytes();
    let spent = shift.ledger.spent;
    for free in [0, 1] {
        let mut full = shift.ledger.clone();
        full.table.truncate((spent as usize + free) * ROW_BYTES);
        let answer = judge_checked(&mut full, &file);
        assert_eq!(answer, Answer::new(3, 0), "{free} free rows");
    }
    let mut damaged = shift.ledger.clone();
    damaged.anchors = 0;
    assert_eq!(judge_checked(&mut damaged, &file), Answer::new(2, 0));
    let answer = judge_checked(&mut shift.ledger, &file);
    assert_eq!(answer, Answer::spent(1, Row(spent - 1)));
}

#[test]
fn every_refusal_is_reached_by_a_case_with_nothing_else_wrong() {
    let mut reached = BTreeSet::new();
    for bend in BENDS {
        for (ledger, case) in bent_cases(bend) {
            let mut refusals = all_refusals(&ledger, &case);
            // A public value above all money takes the pool outside its bounds.
            if bend.answer.number == 5 {
                assert_eq!(refusals.pop(), Some(Answer::new(17, 0)));
            }
            if let [only] = refusals[..] {
                assert_eq!(only.without_row(), bend.answer, "{}", bend.name);
                reached.insert(only.without_row());
            }
        }
    }
    let asked: BTreeSet<Answer> = RULES[2..].iter().map(|rule| rule.answer).collect();
    assert_eq!(asked.len(), 24);
    assert_eq!(reached, asked);
}

#[test]
fn the_table_has_each_answer_once_and_in_order() {
    let answers: Vec<Answer> = RULES.iter().map(|rule| rule.answer).collect();
    assert!(answers.windows(2).all(|pair| pair[0] < pair[1]));
    assert_eq!(answers.first(), Some(&Answer::new(2, 0)));
    assert_eq!(answers.last(), Some(&Answer::new(17, 0)));
    let numbers: BTreeSet<u8> = answers.iter().map(|answer| answer.number).collect();
    assert_eq!(numbers, (2..=17).collect());
    assert!(answers.iter().all(|answer| answer.row == Row::NONE));
}

#[test]
fn another_length_is_refusal_1_before_all_others() {
    let mut shift = Shift::busy(1);
    let case = shift.good_case();
    for (edition, whole) in [(Edition::First, 4_210), (Edition::Second, 4_106)] {
        let file = in_edition(&mut shift.random, &case, edition).to_bytes();
        assert_eq!(file.len(), whole);
        let mut damaged = Ledger::zeroed(Vec::new(), Vec::new());
        let mut ledger = shift.ledger.clone();
        for length in [
            0, 1, 1_698, 1_802, 4_105, 4_107, 4_209, 4_211, 8_212, 8_420, 69_642, 69_746, 100_000,
        ] {
            let mut other = file.clone();
            other.resize(length, 0);
            for ledger in [&mut ledger, &mut damaged] {
                assert_eq!(judge_checked(ledger, &other), Answer::new(1, 0));
            }
        }
        assert_eq!(judge_checked(&mut damaged, &file), Answer::new(2, 0));
        assert_eq!(judge_checked(&mut ledger, &file), Answer::PASSED);
    }
}

#[test]
fn a_file_cut_or_lengthened_to_the_other_length_is_read_as_of_that_edition() {
    let mut shift = Shift::busy(14);
    for (edition, length) in [(Edition::First, 4_106), (Edition::Second, 4_210)] {
        for _ in 0..20 {
            let case = shift.good_case();
            let mut file = in_edition(&mut shift.random, &case, edition).to_bytes();
            file.resize(length, 0);
            let answer = judge_checked(&mut shift.ledger.clone(), &file);
            assert!(answer.number > 8, "{answer}");
        }
    }
}

#[test]
fn damage_is_refusal_2_and_a_near_miss_is_not() {
    let mut shift = Shift::busy(2);
    for tamper in TAMPERS {
        let mut ledger = shift.ledger.clone();
        (tamper.apply)(&mut shift.random, &mut ledger);
        assert_eq!(ledger.is_damaged(), tamper.damages, "{}", tamper.name);
        for _ in 0..4 {
            let file = shift.good_case().to_bytes();
            let answer = judge_checked(&mut ledger.clone(), &file);
            assert_eq!(answer.number == 2, tamper.damages, "{}", tamper.name);
        }
        let mut closed = ledger.clone();
        let answer = closed.close_block();
        assert_eq!(answer.number == 2, tamper.damages, "{}", tamper.name);
        assert!(answer.is_pass() || closed == ledger, "{}", tamper.name);
    }
}

#[test]
fn fewer_than_two_free_rows_is_refusal_3() {
    for (rows, answer) in [(0, 3), (1, 3), (2, 0), (3, 0)] {
        let mut shift = Shift::fresh(3, rows, 2);
        let file = shift.good_case().to_bytes();
        let answered = judge_checked(&mut shift.ledger, &file);
        assert_eq!(answered, Answer::new(answer, 0), "{rows} rows");
    }
}

/// A sound ledger with this many nullifiers in a table of so many rows.
fn big_ledger(spent: u64, rows: usize) -> Ledger {
    let mut ledger = Shift::fresh(4, rows, 2).ledger;
    for (row, bytes) in (1..=spent).zip(ledger.table.chunks_exact_mut(ROW_BYTES)) {
        bytes.fill(0);
        bytes[..8].copy_from_slice(&(row << 32).to_be_bytes());
    }
    ledger.spent = spent;
    let mut record = ledger.tree.record().clone();
    record.count = spent as u32;
    ledger.tree = Tree::planted(record);
    ledger
}

#[test]
fn two_free_rows_are_room_and_none_are_not_on_long_tables() {
    for rows in [2_048, 2_050, 65_536] {
        let mut shift = Shift::fresh(5, 2, 2);
        let file = shift.good_case().to_bytes();
        let mut ledger = big_ledger(rows - 2, rows as usize);
        assert!(!ledger.is_damaged());
        assert_eq!(judge_checked(&mut ledger, &file), Answer::PASSED);
        assert_eq!(ledger.spent, rows);
        let other = shift.good_case().to_bytes();
        assert_eq!(judge_checked(&mut ledger, &other), Answer::new(3, 0));
        let mut full = big_ledger(rows, rows as usize);
        assert!(!full.is_damaged());
        assert_eq!(judge_checked(&mut full, &file), Answer::new(3, 0));
    }
}

#[test]
fn room_is_at_most_65536_rows_however_long_the_table() {
    let mut ledger = big_ledger(65_536, 65_536);
    let file = Shift::fresh(5, 2, 2).good_case().to_bytes();
    for more in [1, 2, 1_000] {
        ledger.table.resize((65_536 + more) * ROW_BYTES, 0xff);
        assert_eq!(ledger.table_room(), 65_536);
        assert_eq!(judge_checked(&mut ledger, &file), Answer::new(3, 0));
    }
    let above = big_ledger(65_538, 65_540);
    assert!(above.is_damaged());
    assert_eq!(ledger.close_block(), Answer::PASSED);
    ledger.table.truncate(65_536 * ROW_BYTES - 1);
    assert!(ledger.is_damaged());
}

#[test]
fn acceptance_leaves_what_the_rules_give() {
    for seed in 0..20 {
        let mut shift = Shift::busy(seed);
        let case = shift.good_case();
        let before = shift.ledger.clone();
        let file = case.to_bytes();
        assert_eq!(judge(&mut shift.ledger, &file), Answer::PASSED);
        check_acceptance(&before, &case, &shift.ledger);
    }
}

/// Works out each part of the end state in another way than the judge does.
fn check_acceptance(before: &Ledger, case: &Case, after: &Ledger) {
    let mut spent: BTreeSet<_> = before.spent_rows().iter().copied().collect();
    spent.extend(case.nullifiers);
    assert_eq!(after.spent, before.spent + 2);
    assert_eq!(after.spent_rows(), Vec::from_iter(spent));

    let used = after.spent as usize * ROW_BYTES;
    assert_eq!(after.table[used..], before.table[used..]);
    assert_eq!(after.table.len(), before.table.len());
    assert_eq!(after.roll, before.roll);
    assert_eq!(after.anchors, before.anchors);

    let mut leaves = before.tree.leaves().expect("all leaves").to_vec();
    leaves.extend(case.commitments);
    assert_eq!(after.tree.leaves(), Some(&leaves[..]));
    assert_eq!(after.tree.record().root(), after.tree.root());
    assert_eq!(u64::from(after.tree.count()), after.spent);

    let public = i128::from(case.vpub_old.0) - i128::from(case.vpub_new.0);
    assert_eq!(i128::from(after.pool), i128::from(before.pool) + public);
    assert!(!after.is_damaged());
}

#[test]
fn the_carried_fields_count_for_nothing() {
    let mut shift = Shift::busy(6);
    let case = shift.good_case();
    for edition in Edition::ALL {
        let case = in_edition(&mut shift.random, &case, edition);
        let mut other = in_edition(&mut shift.random, &case, edition);
        other.ephemeral_key = shift.random.bytes();
        other.ciphertexts = [shift.random.bytes(), shift.random.bytes()];
        assert_ne!(case.to_bytes(), other.to_bytes());
        let mut ledger = shift.ledger.clone();
        let mut other_ledger = shift.ledger.clone();
        assert!(judge(&mut ledger, &case.to_bytes()).is_pass());
        assert!(judge(&mut other_ledger, &other.to_bytes()).is_pass());
        assert_eq!(ledger, other_ledger);
    }
}

#[test]
fn a_fresh_nullifier_is_not_kept_when_the_other_is_spent() {
    let mut shift = Shift::busy(7);
    let bend = bend_named("spent note in place 2");
    let case = shift.bent_case(bend).expect("a spent note");
    let answer = judge_checked(&mut shift.ledger, &case.to_bytes());
    assert_eq!(answer.without_row(), Answer::new(8, 2));
    assert!(!shift.ledger.has_spent(&case.nullifiers[0]));
}
