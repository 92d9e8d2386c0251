//! Document 01's printed example and its marked examples, with that of request
//! No. 1.

use second::answer::Answer;
use second::bag::{judge_bag, write_bag};
use second::case::{Amount, Case, Position, MAX_MONEY};
use second::hashes::{address_block, new_rho_block, nullifier_block, tag_block};
use second::judge::all_refusals;
use second::ledger::Ledger;
use second::random::Random;
use second::seal::{Gate, Seal};
use second::tree::{empty_root, DEPTH};
use second::wallet::{idle_note, write_case, Plan};

/// Two idle notes, and 10,000 from outside for the first new one.
fn first_case() -> Case {
    let mut random = Random::new(1);
    let plan = Plan {
        vpub_old: Amount(10_000),
        vpub_new: Amount::ZERO,
        anchor: empty_root(DEPTH),
        old: [idle_note(&mut random), idle_note(&mut random)],
        new: [
            (random.bytes(), Amount(10_000)),
            (random.bytes(), Amount::ZERO),
        ],
    };
    write_case(&mut random, plan)
}

#[test]
fn the_bag_with_one_case_twice_prints_the_four_lines() {
    let file = first_case().to_bytes();
    let seal = Seal {
        gate: Gate::None,
        raw: 51.0,
    };
    let bag = write_bag(&seal.to_bytes(), &[&file, &file]);
    let expected = [
        "seal 0 0",
        "case 0 0",
        "case 8 1",
        "ledger spent 2 leaves 2 pool 10000",
    ];
    assert_eq!(judge_bag(&bag), expected);
}

/// Whether this refusal applies to a case on a fresh ledger.
fn applies(case: &Case, number: u8) -> bool {
    let (ledger, answer) = Ledger::open(vec![0; 64], vec![0; 32]);
    assert!(answer.is_pass());
    all_refusals(&ledger, case)
        .iter()
        .any(|refusal| refusal.number == number)
}

fn with_public(vpub_old: u64, vpub_new: u64) -> Case {
    Case {
        vpub_old: Amount(vpub_old),
        vpub_new: Amount(vpub_new),
        ..first_case()
    }
}

fn with_values(old: [u64; 2], vpub_new: u64, new: [u64; 2]) -> Case {
    let mut case = with_public(0, vpub_new);
    for place in 0..2 {
        case.old[place].value = Amount(old[place]);
        case.new[place].value = Amount(new[place]);
    }
    case
}

fn with_position(position: u32) -> Case {
    let mut case = first_case();
    case.old[0].position = Position(position);
    case
}

fn key_of(first_byte: u8) -> [u8; 32] {
    let mut key = [0x5c; 32];
    key[0] = first_byte;
    key
}

#[test]
fn the_marked_examples_hold() {
    let a_sk = key_of(0x0a);
    let phi = key_of(0x05);
    let other = [0x77; 32];
    let max = MAX_MONEY.0;
    assert_eq!(max, 2_100_000_000_000_000);
    let top = 18_446_744_073_709_551_615;
    let examples = [
        (1, address_block(&a_sk)[0] == 0xca),
        (2, nullifier_block(&a_sk, &other)[0] == 0xea),
        (3, tag_block(0, &a_sk, &other)[0] == 0x0a),
        (4, tag_block(1, &a_sk, &other)[0] == 0x4a),
        (5, new_rho_block(0, &phi, &other)[0] == 0x25),
        (6, new_rho_block(1, &phi, &other)[0] == 0x65),
        (7, !applies(&with_public(max, 0), 5)),
        (7, !applies(&with_public(0, max), 5)),
        (8, applies(&with_public(max + 1, 0), 5)),
        (8, applies(&with_public(0, max + 1), 5)),
        (9, applies(&with_public(1, 1), 4)),
        (
            10,
            !applies(&with_values([7_000, 3_000], 10_000, [0, 0]), 11),
        ),
        (11, applies(&with_values([top, 1], 0, [0, 0]), 11)),
        (12, !applies(&with_position((1 << 29) - 1), 9)),
        (12, applies(&with_position(1 << 29), 9)),
        // Request No. 1, and one less.
        (13, applies(&with_values([top, 1], 0, [top, 1]), 11)),
        (13, !applies(&with_values([top, 0], 0, [top, 0]), 11)),
    ];
    for (number, holds) in examples {
        assert!(holds, "example {number}");
    }
}

#[test]
fn the_blocks_hold_key_and_rest_as_they_are() {
    let a_sk = key_of(0x0a);
    let rest: [u8; 32] = std::array::from_fn(|i| i as u8);
    for block in [
        nullifier_block(&a_sk, &rest),
        tag_block(1, &a_sk, &rest),
        new_rho_block(0, &a_sk, &rest),
    ] {
        assert_eq!(block[1..32], a_sk[1..]);
        assert_eq!(block[32..], rest);
    }
    assert_eq!(address_block(&a_sk)[32..], [0; 32]);
}

#[test]
fn the_places_of_refusal_5_are_old_and_new() {
    let (ledger, _) = Ledger::open(vec![0; 64], vec![0; 32]);
    let above = MAX_MONEY.0 + 1;
    for (case, place) in [(with_public(above, 0), 1), (with_public(0, above), 2)] {
        let refusals = all_refusals(&ledger, &case);
        assert_eq!(refusals.first(), Some(&Answer::new(5, place)));
    }
}
