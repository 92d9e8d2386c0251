//! Runs for the bounds of the pool: cases that take it to a bound and one past
//! it, at either end; what is asked before; pools that are damage, and the most
//! that is none; two cases whose order shows, and whose order does not. Every
//! long tape has them all, beside the entries that it was asked for.

use crate::answer::{Answer, Row};
use crate::case::{Amount, Case};
use crate::ledger::{Ledger, MAX_POOL};
use crate::random::Random;

use super::misses::{balanced_case, ledger_for, values};
use super::rows::{case_putting, notes_with};
use super::Maker;

/// What a case is answered that would take the pool outside its bounds.
const OUTSIDE: Answer = Answer::new(17, 0);

/// All of them.
pub(super) fn pool_runs(maker: &mut Maker) {
    at_zero(maker);
    at_all_money(maker);
    damaged_pools(maker);
    order_that_shows(maker);
    order_at_all_money(maker);
    shared_nullifier(maker);
}

/// A case that puts this much in, over two notes without value.
fn putting(random: &mut Random, amount: u64) -> Case {
    balanced_case(random, &values(amount, [0, 0], 0))
}

/// A case that takes this much out of a note of as much.
fn taking(random: &mut Random, amount: u64) -> Case {
    balanced_case(random, &values(0, [amount, 0], amount))
}

/// A ledger of four nullifiers with this in its pool, for these cases.
fn pool_ledger(maker: &mut Maker, pool: u64, cases: &[&Case]) -> Ledger {
    ledger_for(maker, 4, pool, cases)
}

/// Plants such a ledger.
fn plant(maker: &mut Maker, pool: u64, cases: &[&Case]) {
    let ledger = pool_ledger(maker, pool, cases);
    maker.plant(&ledger, "pool near a bound");
}

fn judge(maker: &mut Maker, case: &Case, answer: Answer) {
    maker.judge(case, answer, "pool near a bound");
}

/// One less than nothing, with a wrong commitment and without; then the same
/// case where the pool has just enough.
fn at_zero(maker: &mut Maker) {
    let case = taking(&mut maker.random, 1);
    maker.name("pool-16-before-17");
    plant(maker, 0, &[&case]);
    let mut misnamed = case.clone();
    maker.random.flip_bit(&mut misnamed.commitments[1]);
    judge(maker, &misnamed, Answer::new(16, 2));
    maker.name("pool-zero-less-one");
    judge(maker, &case, OUTSIDE);
    look_and_leave(maker);
    maker.name("pool-exactly-zero");
    plant(maker, 1, &[&case]);
    judge(maker, &case, Answer::PASSED);
    look_and_leave(maker);
}

/// A case by which the pool has all money, and one that puts one more in. A pool
/// of all money is no damage.
fn at_all_money(maker: &mut Maker) {
    let [first, then] = [1, 1].map(|amount| putting(&mut maker.random, amount));
    maker.name("pool-exactly-all-money");
    plant(maker, MAX_POOL - 1, &[&first, &then]);
    judge(maker, &first, Answer::PASSED);
    maker.look_at_ledger();
    maker.name("pool-one-above");
    judge(maker, &then, OUTSIDE);
    maker.close_block();
    look_and_leave(maker);
}

/// One above all money, where a case would go further and where one would come
/// back; then what a signed number has as its least, and as minus one.
fn damaged_pools(maker: &mut Maker) {
    let more = putting(&mut maker.random, 1);
    let less = taking(&mut maker.random, 1);
    maker.name("pool-2-before-17");
    plant(maker, MAX_POOL + 1, &[&more, &less]);
    judge(maker, &more, OUTSIDE);
    maker.name("pool-damage-one-above");
    damaged(maker, &less);
    maker.name("pool-damage-2-to-the-63");
    plant(maker, 1 << 63, &[&less]);
    damaged(maker, &less);
    maker.name("pool-damage");
    plant(maker, u64::MAX, &[&more]);
    damaged(maker, &more);
}

/// A case that would pass if the pool were not looked at, and a closing.
fn damaged(maker: &mut Maker, case: &Case) {
    judge(maker, case, Answer::PASSED);
    maker.close_block();
    look_and_leave(maker);
}

/// Nothing in the pool; c puts 10 in, d takes 10 out. With what both ask for the
/// pool stays in its bounds, but not with what d does: d has to come later.
fn order_that_shows(maker: &mut Maker) {
    let c = putting(&mut maker.random, 10);
    let d = taking(&mut maker.random, 10);
    let ledger = pool_ledger(maker, 0, &[&c, &d]);
    let passed = Answer::PASSED;
    in_order(
        maker,
        "pool-order-c-d",
        &ledger,
        [(&c, passed), (&d, passed)],
    );
    in_order(
        maker,
        "pool-order-d-c",
        &ledger,
        [(&d, OUTSIDE), (&c, passed)],
    );
}

/// c puts 6 in and d puts 5 in. Where there is room for 11 both pass in either
/// order; where there is room for 10 the first of them does.
fn order_at_all_money(maker: &mut Maker) {
    let c = putting(&mut maker.random, 6);
    let d = putting(&mut maker.random, 5);
    for (name, room, later) in [
        ("pool-order-met", 11, Answer::PASSED),
        ("pool-order-missed", 10, OUTSIDE),
    ] {
        let ledger = pool_ledger(maker, MAX_POOL - room, &[&c, &d]);
        for (order, first, then) in [("c-d", &c, &d), ("d-c", &d, &c)] {
            let cases = [(first, Answer::PASSED), (then, later)];
            in_order(maker, &format!("{name}-{order}"), &ledger, cases);
        }
    }
}

/// The same two amounts where there is room for 10, the cases having a nullifier
/// in common: that is asked before. It goes above the four rows that are planted
/// and below the other one of its case.
fn shared_nullifier(maker: &mut Maker) {
    let [shared, own, others] = notes_with(maker, [0x80, 0xa0, 0xc0]);
    let c = case_putting(maker, [&shared, &own], Amount(6));
    let d = case_putting(maker, [&others, &shared], Amount(5));
    let ledger = pool_ledger(maker, MAX_POOL - 10, &[&c, &d]);
    let passed = Answer::PASSED;
    let spent = |place: u8| Answer::spent(place, Row(4));
    in_order(
        maker,
        "pool-shared-c-d",
        &ledger,
        [(&c, passed), (&d, spent(2))],
    );
    in_order(
        maker,
        "pool-shared-d-c",
        &ledger,
        [(&d, passed), (&c, spent(1))],
    );
}

/// Two cases on this ledger, one after the other, with their answers.
fn in_order(maker: &mut Maker, name: &str, ledger: &Ledger, cases: [(&Case, Answer); 2]) {
    maker.name(name);
    maker.plant(ledger, "pool near a bound");
    for (case, answer) in cases {
        judge(maker, case, answer);
    }
    look_and_leave(maker);
}

fn look_and_leave(maker: &mut Maker) {
    maker.look_at_ledger();
    maker.leave_ledger();
}
