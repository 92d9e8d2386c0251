//! The bounds of the pool: refusal 17, and the damage of a pool outside them.

mod common;

use std::collections::BTreeSet;

use common::{case_asking, ledger_for, Shift};
use second::answer::Answer;
use second::bag::judge_bag;
use second::case::{Amount, Case, MAX_MONEY};
use second::judge::{all_refusals, judge};
use second::ledger::{Ledger, MAX_POOL};
use second::maker::bends::BENDS;
use second::random::Random;
use second::seal::seal_bytes;
use second::tape::{plant_body, read_plant};

const OUTSIDE: Answer = Answer::new(17, 0);

/// All money, as a change of the pool.
const ALL: i64 = 2_100_000_000_000_000;

/// What a case that changes the pool by this is answered, and the pool after it.
/// A refusal must leave the whole ledger.
fn asked(pool: u64, change: i64) -> (Answer, u64) {
    let case = case_asking(&mut Random::new(pool ^ change.unsigned_abs()), change);
    let mut ledger = ledger_for(pool, &[&case]);
    let before = ledger.clone();
    let answer = judge(&mut ledger, &case.to_bytes());
    assert!(answer.is_pass() || ledger == before, "{pool} {change}");
    (answer, ledger.pool)
}

#[test]
fn the_bounds_are_nothing_and_all_money() {
    assert_eq!(MAX_POOL, 2_100_000_000_000_000);
    assert_eq!(i64::try_from(MAX_POOL), Ok(ALL));
}

#[test]
fn a_case_may_empty_the_pool_and_may_not_take_one_more() {
    for amount in [1, 10, 10_000, MAX_POOL - 1, MAX_POOL] {
        let change = -(amount as i64);
        assert_eq!(asked(amount, change), (Answer::PASSED, 0), "{amount}");
        let less = amount - 1;
        assert_eq!(asked(less, change), (OUTSIDE, less), "{amount}");
    }
    assert_eq!(asked(0, -ALL), (OUTSIDE, 0), "far below");
}

#[test]
fn a_case_may_fill_the_pool_and_may_not_put_one_more_in() {
    for amount in [1, 10, 10_000, MAX_POOL - 1, MAX_POOL] {
        let room = MAX_POOL - amount;
        let change = amount as i64;
        assert_eq!(asked(room, change), (Answer::PASSED, MAX_POOL), "{amount}");
        let more = room + 1;
        assert_eq!(asked(more, change), (OUTSIDE, more), "{amount}");
    }
    assert_eq!(asked(MAX_POOL, ALL), (OUTSIDE, MAX_POOL), "far above");
}

#[test]
fn a_case_without_public_values_passes_at_either_bound() {
    for pool in [0, MAX_POOL] {
        assert_eq!(asked(pool, 0), (Answer::PASSED, pool));
    }
}

#[test]
fn a_case_that_comes_back_from_a_bound_passes() {
    assert_eq!(asked(0, 1), (Answer::PASSED, 1));
    assert_eq!(asked(MAX_POOL, -1), (Answer::PASSED, MAX_POOL - 1));
    assert_eq!(asked(0, ALL), (Answer::PASSED, MAX_POOL));
    assert_eq!(asked(MAX_POOL, -ALL), (Answer::PASSED, 0));
}

/// Whether a ledger of so many nullifiers with this pool is damaged; a case and
/// a closing have to tell the same.
fn is_damaged(seed: u64, pool: u64) -> bool {
    let mut shift = if seed == 0 {
        Shift::fresh(seed, 4, 4)
    } else {
        Shift::busy(seed)
    };
    shift.ledger.pool = pool;
    shift.purse.pool = pool;
    let mut closed = shift.ledger.clone();
    let closing = closed.close_block();
    let file = shift.good_case().to_bytes();
    let answer = judge(&mut shift.ledger.clone(), &file);
    assert_eq!(closing.number == 2, answer.number == 2, "pool {pool}");
    assert!(answer.is_pass() || answer == Answer::new(2, 0));
    assert_eq!(closing.number == 2, shift.ledger.is_damaged());
    shift.ledger.is_damaged()
}

#[test]
fn a_pool_outside_its_bounds_is_damage_whatever_else_the_ledger_has() {
    // Without nullifiers, and with fourteen of them.
    for seed in [0, 1] {
        for pool in [0, 1, MAX_POOL - 1, MAX_POOL] {
            assert!(!is_damaged(seed, pool), "{pool}");
        }
        for pool in [
            MAX_POOL + 1,
            2 * MAX_POOL,
            7 * MAX_POOL,
            i64::MAX as u64,
            1 << 63,
            MAX_POOL.wrapping_neg(),
            u64::MAX - 1,
            u64::MAX,
        ] {
            assert!(is_damaged(seed, pool), "{pool}");
        }
    }
}

#[test]
fn a_pool_that_was_stored_below_zero_is_read_as_far_above_all_money() {
    let mut shift = Shift::busy(2);
    let mut body = plant_body(&shift.ledger);
    body[16..24].copy_from_slice(&(-1i64).to_le_bytes());
    shift.ledger = read_plant(&body).expect("a sound body");
    assert_eq!(shift.ledger.pool, 18_446_744_073_709_551_615);
    assert_eq!(shift.ledger.close_block(), Answer::new(2, 0));
    let file = shift.good_case().to_bytes();
    assert_eq!(judge(&mut shift.ledger, &file), Answer::new(2, 0));
}

#[test]
fn damage_comes_before_17_and_where_17_would_not_apply() {
    let above = MAX_POOL + 1;
    for change in [1, 0, -1, ALL, -ALL] {
        assert_eq!(asked(above, change), (Answer::new(2, 0), above));
        assert_eq!(asked(u64::MAX, change), (Answer::new(2, 0), u64::MAX));
    }
}

/// A case that is right but for where it takes the pool.
fn outside_case(shift: &mut Shift) -> Case {
    loop {
        let case = shift.purse.careless_case(&mut shift.random);
        if all_refusals(&shift.ledger, &case) == [OUTSIDE] {
            return case;
        }
    }
}

#[test]
fn every_other_refusal_comes_before_17() {
    let mut before = BTreeSet::new();
    for seed in 0..4 {
        for mut shift in [Shift::busy(seed), Shift::elsewhere(seed)] {
            for bend in BENDS.iter().filter(|bend| bend.answer.number < 17) {
                let case = outside_case(&mut shift);
                let Some(bent) = shift.bend(bend, case) else {
                    continue;
                };
                let refusals = all_refusals(&shift.ledger, &bent);
                if bend.answer.is_pass() || refusals.last() != Some(&OUTSIDE) {
                    continue;
                }
                let first = judge(&mut shift.ledger.clone(), &bent.to_bytes());
                assert_eq!(first.without_row(), bend.answer, "{}", bend.name);
                before.insert(first.number);
            }
        }
    }
    assert_eq!(before, (4..=16).collect());
}

#[test]
fn a_full_table_comes_before_17() {
    let case = case_asking(&mut Random::new(3), -1);
    let mut ledger = ledger_for(0, &[&case]);
    ledger.table.clear();
    assert_eq!(judge(&mut ledger, &case.to_bytes()), Answer::new(3, 0));
}

#[test]
fn public_values_far_above_all_money_are_5_and_do_not_wrap() {
    for public in [[u64::MAX, 0], [0, u64::MAX], [1 << 63, 0], [0, 1 << 63]] {
        let mut case = case_asking(&mut Random::new(4), 1);
        [case.vpub_old, case.vpub_new] = public.map(Amount);
        for pool in [0, 1, MAX_POOL] {
            let ledger = ledger_for(pool, &[&case]);
            let refusals = all_refusals(&ledger, &case);
            assert_eq!(refusals[0].number, 5, "{public:?}");
            assert_eq!(refusals.last(), Some(&OUTSIDE), "{public:?}");
        }
    }
}

#[test]
fn whatever_is_asked_the_pool_stays_in_its_bounds_and_counts_what_was_accepted() {
    let mut answers = [0; 2];
    for seed in 0..20 {
        let mut shift = Shift::busy(seed);
        if seed % 2 == 1 {
            shift = Shift::elsewhere(seed);
        }
        for _ in 0..6 {
            let case = shift.purse.careless_case(&mut shift.random);
            let after = i128::from(shift.ledger.pool) + i128::from(case.vpub_old.0)
                - i128::from(case.vpub_new.0);
            let answer = judge(&mut shift.ledger, &case.to_bytes());
            let is_inside = (0..=2_100_000_000_000_000).contains(&after);
            assert_eq!(answer, if is_inside { Answer::PASSED } else { OUTSIDE });
            answers[usize::from(is_inside)] += 1;
            if is_inside {
                assert_eq!(i128::from(shift.ledger.pool), after);
                shift.purse.settle(&case);
            }
            assert!(shift.ledger.pool <= MAX_POOL);
            assert_eq!(shift.ledger.pool, shift.purse.pool);
        }
    }
    assert!(answers.iter().all(|times| *times > 20), "{answers:?}");
}

#[test]
fn a_bag_that_puts_in_all_money_and_one_more_is_refused_the_one() {
    let mut random = Random::new(5);
    let mut put = |amount: u64| fresh_case(&mut random, amount).to_bytes();
    let (all, one) = (put(MAX_MONEY.0), put(1));
    let bag = second::bag::write_bag(&seal_bytes(0, 0, 0, 0), &[&all, &one]);
    let expected = [
        "seal 0 0",
        "case 0 0",
        "case 17 0",
        "ledger spent 2 leaves 2 pool 2100000000000000",
    ];
    assert_eq!(judge_bag(&bag), expected);
}

/// A case for a fresh ledger that puts this much in.
fn fresh_case(random: &mut Random, amount: u64) -> Case {
    let mut case = case_asking(random, amount as i64);
    case.anchor = Ledger::open(Vec::new(), vec![0; 32]).0.anchor_rows()[0];
    case
}
