//! Demand 3: two cases in either order.

mod common;

use common::{case_asking, case_over, leaves_of, ledger_for, Shift};
use second::answer::{Answer, Row};
use second::case::{Amount, Case};
use second::judge::judge;
use second::ledger::{Ledger, MAX_POOL};
use second::maker::bends::BENDS;
use second::random::Random;
use second::wallet::{any_proof, balance, idle_note, set_nullifiers};

/// Judges two files one after the other, on a copy: number and place of the
/// answers, which are all that the demand speaks of.
fn judge_both(ledger: &Ledger, files: [&[u8]; 2]) -> (Ledger, [Answer; 2]) {
    let mut ledger = ledger.clone();
    let answers = files.map(|file| judge(&mut ledger, file).without_row());
    (ledger, answers)
}

fn judge_alone(ledger: &Ledger, file: &[u8]) -> Answer {
    judge(&mut ledger.clone(), file).without_row()
}

/// A case good or bent, as a file of a right or, now and then, wrong length.
fn any_file(shift: &mut Shift) -> Vec<u8> {
    let case = if shift.random.one_in(2) {
        shift.good_case()
    } else {
        let index = shift.random.below(BENDS.len());
        let bent = shift.bent_case(&BENDS[index]);
        bent.unwrap_or_else(|| shift.good_case())
    };
    let mut file = case.to_bytes();
    if shift.random.one_in(20) {
        file.pop();
    }
    file
}

/// A file of a wrong length has no nullifier.
fn nullifiers(file: &[u8]) -> Vec<[u8; 32]> {
    Case::read(file).map_or(Vec::new(), |case| case.nullifiers.to_vec())
}

fn share_a_nullifier(one: &[u8], other: &[u8]) -> bool {
    let others = nullifiers(other);
    nullifiers(one).iter().any(|row| others.contains(row))
}

/// What a file asks the pool to change by, be it accepted or not. One of a wrong
/// length asks for nothing.
fn asked_of_pool(file: &[u8]) -> i128 {
    Case::read(file).map_or(0, |case| {
        i128::from(case.vpub_old.0) - i128::from(case.vpub_new.0)
    })
}

/// Whether the pool is in its bounds with what each of two files asks for, taken
/// alone, and with what both do. Else nothing is claimed of their order.
fn pool_is_in_bounds(ledger: &Ledger, one: &[u8], other: &[u8]) -> bool {
    let [one, other] = [one, other].map(asked_of_pool);
    let pools = [one, other, one + other].map(|asked| i128::from(ledger.pool) + asked);
    pools
        .iter()
        .all(|pool| (0..=2_100_000_000_000_000).contains(pool))
}

/// The ledger must have room for both cases; they share no nullifier and leave
/// the pool in its bounds.
fn check_two_orders(ledger: &Ledger, one: &[u8], other: &[u8]) -> bool {
    assert!(ledger.free_table_rows() >= 4);
    assert!(pool_is_in_bounds(ledger, one, other));
    let alone = [judge_alone(ledger, one), judge_alone(ledger, other)];
    let (ended, answers) = judge_both(ledger, [one, other]);
    let (ended_too, answers_too) = judge_both(ledger, [other, one]);
    assert_eq!(answers, alone);
    assert_eq!(answers_too, [alone[1], alone[0]]);
    let both_pass = alone.iter().all(|answer| answer.is_pass());
    if both_pass {
        assert_eq!(ended.table, ended_too.table);
        assert_eq!(ended.spent, ended_too.spent);
        assert_eq!(ended.roll, ended_too.roll);
        assert_eq!(ended.anchors, ended_too.anchors);
        assert_eq!(ended.pool, ended_too.pool);
        check_trees(&ended, &ended_too);
    } else {
        assert_eq!(ended, ended_too);
    }
    both_pass
}

/// The same leaves, but for which pair came first.
fn check_trees(ended: &Ledger, ended_too: &Ledger) {
    let leaves = ended.tree.leaves().expect("all leaves");
    let mut swapped = leaves.to_vec();
    let pairs = swapped.len() - 4;
    swapped[pairs..].rotate_left(2);
    assert_eq!(ended_too.tree.leaves(), Some(&swapped[..]));
    assert_ne!(leaves, &swapped[..]);
}

#[test]
fn two_cases_get_the_same_answers_in_either_order() {
    let (mut tried, mut passed, mut mixed) = (0, 0, 0);
    for seed in 0..40 {
        let mut shift = Shift::busy(seed);
        for _ in 0..10 {
            let one = any_file(&mut shift);
            let other = any_file(&mut shift);
            let is_in_bounds = pool_is_in_bounds(&shift.ledger, &one, &other);
            if share_a_nullifier(&one, &other) || !is_in_bounds {
                continue;
            }
            tried += 1;
            let both_pass = check_two_orders(&shift.ledger, &one, &other);
            passed += usize::from(both_pass);
            mixed += usize::from(both_pass && one.len() != other.len());
        }
    }
    assert!(tried > 250, "only {tried} pairs tried");
    assert!(passed > 40, "only {passed} pairs passed");
    assert!(
        mixed > 15,
        "only {mixed} pairs of different editions passed"
    );
}

/// Files of two cases that change the pool by so much, and a ledger for both.
fn two_asking(pool: u64, changes: [i64; 2]) -> (Ledger, [Vec<u8>; 2]) {
    let mut random = Random::new(pool);
    let cases = changes.map(|change| case_asking(&mut random, change));
    let ledger = ledger_for(pool, &[&cases[0], &cases[1]]);
    (ledger, cases.map(|case| case.to_bytes()))
}

const PASSED: Answer = Answer::PASSED;
const OUTSIDE: Answer = Answer::new(17, 0);

/// All money, as a change of the pool.
const ALL: i64 = MAX_POOL as i64;

#[test]
fn two_cases_that_just_leave_the_pool_in_its_bounds_may_come_in_either_order() {
    for (pool, changes) in [
        (MAX_POOL - 11, [6, 5]),
        (11, [-6, -5]),
        (10, [10, -10]),
        (MAX_POOL - 10, [10, -10]),
        (0, [0, ALL]),
        (MAX_POOL, [0, -ALL]),
        (0, [ALL - 1, 1]),
    ] {
        let (ledger, [one, other]) = two_asking(pool, changes);
        assert!(pool_is_in_bounds(&ledger, &one, &other));
        let answers = [
            judge_both(&ledger, [&one, &other]),
            judge_both(&ledger, [&other, &one]),
        ];
        let [(ended, both), (ended_too, both_too)] = answers;
        assert_eq!([both, both_too], [[PASSED; 2]; 2], "{pool} {changes:?}");
        assert_eq!(ended.pool, ended_too.pool);
        assert_eq!(ended.table, ended_too.table);
        assert_eq!(
            i128::from(ended.pool),
            i128::from(pool) + i128::from(changes[0] + changes[1])
        );
    }
}

#[test]
fn the_order_shows_where_one_of_two_cases_alone_takes_the_pool_outside() {
    for (pool, changes) in [
        (0, [10, -10]),
        (9, [1, -10]),
        (MAX_POOL, [-10, 10]),
        (MAX_POOL - 9, [-1, 10]),
        (0, [ALL, -ALL]),
        (MAX_POOL, [-ALL, ALL]),
    ] {
        let (ledger, [c, d]) = two_asking(pool, changes);
        assert!(!pool_is_in_bounds(&ledger, &c, &d));
        assert_eq!(judge_alone(&ledger, &d), OUTSIDE);
        assert_eq!(judge_both(&ledger, [&c, &d]).1, [PASSED, PASSED], "{pool}");
        assert_eq!(judge_both(&ledger, [&d, &c]).1, [OUTSIDE, PASSED], "{pool}");
    }
}

#[test]
fn the_later_one_is_refused_where_only_both_take_the_pool_outside() {
    for (pool, changes) in [
        (MAX_POOL - 10, [6, 5]),
        (10, [-6, -5]),
        (0, [ALL, 1]),
        (MAX_POOL, [-ALL, -1]),
    ] {
        let (ledger, [c, d]) = two_asking(pool, changes);
        assert!(!pool_is_in_bounds(&ledger, &c, &d));
        for files in [[&c[..], &d[..]], [&d[..], &c[..]]] {
            assert_eq!(judge_alone(&ledger, files[0]), PASSED);
            let (ended, answers) = judge_both(&ledger, files);
            assert_eq!(answers, [PASSED, OUTSIDE], "{pool}");
            let first = i128::from(pool) + asked_of_pool(files[0]);
            assert_eq!(i128::from(ended.pool), first, "the pools end apart");
        }
    }
}

#[test]
fn what_a_refused_case_asks_for_counts_and_what_a_cut_one_asks_for_does_not() {
    let (ledger, [c, mut d]) = two_asking(MAX_POOL - 10, [6, 5]);
    // A commitment of d is wrong: it is refused with 16 in either order.
    d[112] ^= 1;
    assert!(!pool_is_in_bounds(&ledger, &c, &d));
    let wrong = Answer::new(16, 1);
    assert_eq!(judge_both(&ledger, [&c, &d]).1, [PASSED, wrong]);
    assert_eq!(judge_both(&ledger, [&d, &c]).1, [wrong, PASSED]);
    d.pop();
    assert!(pool_is_in_bounds(&ledger, &c, &d));
    let cut = Answer::new(1, 0);
    assert_eq!(judge_both(&ledger, [&c, &d]).1, [PASSED, cut]);
    assert_eq!(judge_both(&ledger, [&d, &c]).1, [cut, PASSED]);
}

#[test]
fn a_shared_nullifier_is_refused_as_spent_where_both_take_the_pool_outside() {
    let mut random = Random::new(20);
    for (pool, [first, then]) in [(MAX_POOL - 10, [6, 5]), (0, [MAX_POOL, 1])] {
        let notes = leaves_of(&mut random, [0, 0]);
        let c = case_over(&mut random, notes.clone(), first, 0);
        let mut d = case_over(&mut random, notes, then, 0);
        d.old[0] = idle_note(&mut random);
        set_nullifiers(&mut d);
        let ledger = ledger_for(pool, &[&c, &d]);
        let [c, d] = [c, d].map(|case| case.to_bytes());
        assert!(share_a_nullifier(&c, &d) && !pool_is_in_bounds(&ledger, &c, &d));
        for files in [[&c[..], &d[..]], [&d[..], &c[..]]] {
            assert_eq!(judge_alone(&ledger, files[0]), PASSED);
            assert_eq!(judge_alone(&ledger, files[1]), PASSED);
            let (_, answers) = judge_both(&ledger, files);
            assert_eq!(answers, [PASSED, Answer::new(8, 2)]);
        }
    }
}

/// Another good case with one of the same old notes.
fn sharing_case(shift: &mut Shift, case: &Case) -> Case {
    let mut other = case.clone().with_proof(any_proof(&mut shift.random));
    other.old[shift.random.below(2)] = idle_note(&mut shift.random);
    if shift.random.one_in(2) {
        other.old.swap(0, 1);
    }
    other.vpub_new = Amount::ZERO;
    set_nullifiers(&mut other);
    assert!(balance(&mut shift.random, &mut other));
    other
}

#[test]
fn of_two_good_cases_with_a_common_nullifier_the_second_is_refused_as_spent() {
    let (mut places, mut mixed) = ([0; 2], 0);
    for seed in 0..40 {
        let mut shift = Shift::busy(seed);
        let one = shift.good_case();
        let other = sharing_case(&mut shift, &one);
        let (one, other) = (one.to_bytes(), other.to_bytes());
        mixed += usize::from(one.len() != other.len());
        assert!(share_a_nullifier(&one, &other));
        for files in [[&one[..], &other[..]], [&other[..], &one[..]]] {
            assert_eq!(judge_alone(&shift.ledger, files[0]), Answer::PASSED);
            let (_, answers) = judge_both(&shift.ledger, files);
            assert_eq!(answers[0], Answer::PASSED);
            assert_eq!(answers[1].number, 8);
            places[usize::from(answers[1].place) - 1] += 1;
        }
    }
    assert!(places.iter().all(|times| *times > 5), "{places:?}");
    assert!((10..30).contains(&mixed), "{mixed} of different editions");
}

/// The row with which a file is refused as spent at place 1.
fn spent_row(ledger: &mut Ledger, file: &[u8]) -> Row {
    let answer = judge(ledger, file);
    assert_eq!(answer.without_row(), Answer::new(8, 1));
    answer.row
}

#[test]
fn a_case_between_shifts_the_row_by_what_it_enters_below_and_nothing_else() {
    let mut shifts = [0; 3];
    for seed in 0..40 {
        let mut shift = Shift::busy(seed);
        let rows = shift.ledger.spent_rows().to_vec();
        let index = shift.random.below(rows.len());
        let mut spent = shift.good_case();
        spent.nullifiers[0] = rows[index];
        let file = spent.to_bytes();
        assert_eq!(spent_row(&mut shift.ledger, &file), Row(index as u64));

        let between = shift.good_case();
        assert_eq!(
            judge(&mut shift.ledger, &between.to_bytes()),
            Answer::PASSED
        );
        let is_below = |nullifier: &&[u8; 32]| **nullifier < rows[index];
        let below = between.nullifiers.iter().filter(is_below).count();
        let shifted = Row((index + below) as u64);
        assert_eq!(spent_row(&mut shift.ledger, &file), shifted, "seed {seed}");
        shifts[below] += 1;
    }
    assert!(shifts.iter().all(|times| *times > 3), "{shifts:?}");
}
