//! The pool stays in its bounds, zero and all money: cases of the second
//! judge's wallet that put in or take out any amount, on ledgers whose pool is
//! at a bound, near it or past it.

use second::case::{Amount, Case, Position};
use second::random::Random;
use second::tree::{path_of_leaf, root_of_leaves};
use second::wallet::{idle_note, write_case, Note, Plan};
use snaldrek::{Answer, Ledger, Pair, Refusal, MAX_MONEY};

const AMOUNTS: [u64; 7] = [0, 1, 2, 9_999, 10_000, MAX_MONEY - 1, MAX_MONEY];
const WITHIN: [u64; 8] = [
    0,
    1,
    2,
    10_000,
    MAX_MONEY - 10_000,
    MAX_MONEY - 2,
    MAX_MONEY - 1,
    MAX_MONEY,
];
const OUTSIDE: [u64; 5] = [
    MAX_MONEY + 1,
    (1 << 63) - 1,
    1 << 63,
    u64::MAX - 1,
    u64::MAX,
];

/// A case that puts in so much, or takes out so much, of a note that is the
/// only leaf under its anchor.
fn case(put: u64, taken: u64) -> Case {
    let mut random = Random::new(17);
    let note = Note::random(&mut random, Amount(taken));
    let leaves = [note.commitment()];
    let path = path_of_leaf(&leaves, Position(0));
    let plan = Plan {
        vpub_old: Amount(put),
        vpub_new: Amount(taken),
        anchor: root_of_leaves(&leaves),
        old: [note.at(Position(0), path), idle_note(&mut random)],
        new: [Amount(put), Amount::ZERO].map(|value| (random.bytes(), value)),
    };
    write_case(&mut random, plan)
}

/// All cases that put in or take out one of the amounts, each with its two
/// public values.
fn cases() -> Vec<(u64, u64, Case)> {
    let moves = AMOUNTS.into_iter().flat_map(|n| [(n, 0), (0, n)]);
    moves
        .map(|(put, taken)| (put, taken, case(put, taken)))
        .collect()
}

/// A fresh ledger but for its pool, and for its anchor, which is the case's.
fn ledger_for(case: &Case, pool: u64) -> Ledger {
    let fresh = Ledger::open(2, 2).expect("rows for anchors");
    let (bytes, table, roll) = fresh.parts();
    let (mut bytes, mut roll) = (*bytes, roll.to_vec());
    bytes[16..24].copy_from_slice(&pool.to_le_bytes());
    roll[..32].copy_from_slice(&case.anchor);
    Ledger::from_parts(bytes, table.to_vec(), roll)
}

/// Judges a case on a ledger with this pool, and gives the answer with the pool
/// after it. A refusal leaves the ledger as it was.
fn judged(case: &Case, pool: u64) -> (Answer, u64) {
    let mut ledger = ledger_for(case, pool);
    let before = ledger.clone();
    assert_eq!(ledger.pool(), pool);
    let answer = ledger.judge(&case.to_bytes());
    assert!(
        answer.is_ok() || ledger == before,
        "a refusal changes no byte"
    );
    (answer, ledger.pool())
}

#[test]
fn a_case_passes_exactly_where_the_pool_stays_in_its_bounds() {
    for (put, taken, case) in cases() {
        for pool in WITHIN {
            let after = i128::from(pool) + i128::from(put) - i128::from(taken);
            let expected = match u64::try_from(after) {
                Ok(after) if after <= MAX_MONEY => (Ok(()), after),
                _ => (Err(Refusal::PoolOutOfBounds), pool),
            };
            assert_eq!(judged(&case, pool), expected, "{pool} + {put} - {taken}");
        }
    }
}

/// Also where the case would bring the pool back.
#[test]
fn a_pool_outside_its_bounds_is_damage() {
    for (put, taken, case) in cases() {
        for pool in OUTSIDE {
            let expected = (Err(Refusal::LedgerDamaged), pool);
            assert_eq!(judged(&case, pool), expected, "{pool} + {put} - {taken}");
        }
    }
}

#[test]
fn a_block_is_closed_with_every_pool_in_its_bounds() {
    let case = case(0, 0);
    for pool in WITHIN {
        assert_eq!(ledger_for(&case, pool).close(), Ok(()), "{pool}");
    }
    for pool in OUTSIDE {
        let closed = ledger_for(&case, pool).close();
        assert_eq!(closed, Err(Refusal::LedgerDamaged), "{pool}");
    }
}

#[test]
fn whatever_else_is_wrong_comes_before_the_pool() {
    for (put, taken, pool) in [(1, 0, MAX_MONEY), (0, 1, 0)] {
        let mut case = case(put, taken);
        assert_eq!(judged(&case, pool).0, Err(Refusal::PoolOutOfBounds));
        case.commitments[1][31] ^= 1;
        let wrong = Refusal::CommitmentWrong(Pair::Second);
        assert_eq!(judged(&case, pool).0, Err(wrong));
    }
}
