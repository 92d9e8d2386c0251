//! Edges: bends of one bit at a chosen spot of a field. A judge that compares
//! one byte too few at either end of a field, or asks for one bit too few of a
//! key's top four, gives another answer to one of them.

use crate::bytes::Bytes32;
use crate::case::Case;
use crate::random::Random;
use crate::tree::DEPTH;
use crate::wallet::{set_commitments, set_new_rhos, set_tags};

use super::bends::{bend, idle, pick_held, valued, Bench, Bend};

/// Where the bit lies in a field of 32 bytes.
#[derive(Clone, Copy)]
enum Spot {
    First,
    Last,
    Between,
}

/// A bend of one bit at one spot of a field, by a function that takes the
/// field's place.
macro_rules! edge {
    ($number:literal, $place:literal, $name:expr, $bent:ident($which:literal), $spot:ident) => {
        bend($number, $place, $name, |b, c| {
            $bent(b, c, $which, Spot::$spot)
        })
    };
}

/// The first and the last byte of a field.
macro_rules! ends {
    ($number:literal, $place:literal, $field:literal, $bent:ident($which:literal)) => {
        [
            edge!(
                $number,
                $place,
                concat!($field, " off in its first byte"),
                $bent($which),
                First
            ),
            edge!(
                $number,
                $place,
                concat!($field, " off in its last byte"),
                $bent($which),
                Last
            ),
        ]
    };
}

/// A bit between the two ends of a field.
macro_rules! between {
    ($number:literal, $place:literal, $field:literal, $bent:ident($which:literal)) => {
        edge!(
            $number,
            $place,
            concat!($field, " off in a bit between"),
            $bent($which),
            Between
        )
    };
}

/// Every field that a refusal compares, and rows that a path is read by.
const ENDS: [[Bend; 2]; 18] = [
    ends!(6, 0, "anchor", anchor(0)),
    ends!(10, 1, "path 1's lowest row", lowest_row(0)),
    ends!(10, 2, "path 2's lowest row", lowest_row(1)),
    ends!(10, 1, "path 1's highest row", highest_row(0)),
    ends!(10, 2, "path 2's highest row", highest_row(1)),
    ends!(12, 1, "nullifier 1", own_nullifier(0)),
    ends!(12, 2, "nullifier 2", own_nullifier(1)),
    ends!(12, 1, "a spent nullifier 1", spent_nullifier(0)),
    ends!(12, 2, "a spent nullifier 2", spent_nullifier(1)),
    ends!(12, 2, "nullifier 1 in place 2", first_nullifier(1)),
    ends!(13, 1, "address of idle note 1", idle_address(0)),
    ends!(13, 2, "address of idle note 2", idle_address(1)),
    ends!(14, 1, "tag 1", tag(0)),
    ends!(14, 2, "tag 2", tag(1)),
    ends!(15, 1, "new rho 1, committed,", new_rho(0)),
    ends!(15, 2, "new rho 2, committed,", new_rho(1)),
    ends!(16, 1, "commitment 1", commitment(0)),
    ends!(16, 2, "commitment 2", commitment(1)),
];

/// The same fields once each; a bit of any row of a path is a plain bend.
const BETWEEN: [Bend; 11] = [
    between!(6, 0, "anchor", anchor(0)),
    between!(12, 1, "nullifier 1", own_nullifier(0)),
    between!(12, 2, "nullifier 2", own_nullifier(1)),
    between!(13, 1, "address of idle note 1", idle_address(0)),
    between!(13, 2, "address of idle note 2", idle_address(1)),
    between!(14, 1, "tag 1", tag(0)),
    between!(14, 2, "tag 2", tag(1)),
    between!(15, 1, "new rho 1, committed,", new_rho(0)),
    between!(15, 2, "new rho 2, committed,", new_rho(1)),
    between!(16, 1, "commitment 1", commitment(0)),
    between!(16, 2, "commitment 2", commitment(1)),
];

/// Each of the top four bits of a key alone.
macro_rules! top_bits {
    ($place:literal, $key:literal, $field:ident) => {
        [
            bend(9, $place, concat!($key, " has its highest bit"), |_, c| {
                top_bit(c, $field, 0x80)
            }),
            bend(9, $place, concat!($key, " has its second bit"), |_, c| {
                top_bit(c, $field, 0x40)
            }),
            bend(9, $place, concat!($key, " has its third bit"), |_, c| {
                top_bit(c, $field, 0x20)
            }),
            bend(9, $place, concat!($key, " has its fourth bit"), |_, c| {
                top_bit(c, $field, 0x10)
            }),
        ]
    };
}

/// Every key of 252 bits.
const KEYS: [[Bend; 4]; 3] = [
    top_bits!(1, "key 1", key_1),
    top_bits!(2, "key 2", key_2),
    top_bits!(3, "phi", phi),
];

/// All of them.
pub const EDGES: [&[Bend]; 3] = [ENDS.as_flattened(), &BETWEEN, KEYS.as_flattened()];

/// Turns one bit over.
fn turn(random: &mut Random, field: &mut Bytes32, spot: Spot) {
    match spot {
        Spot::First => random.flip_bit_of(&mut field[0]),
        Spot::Last => random.flip_bit_of(&mut field[31]),
        Spot::Between => random.flip_bit(&mut field[1..31]),
    }
}

fn key_1(case: &mut Case) -> &mut Bytes32 {
    &mut case.old[0].a_sk
}

fn key_2(case: &mut Case) -> &mut Bytes32 {
    &mut case.old[1].a_sk
}

fn phi(case: &mut Case) -> &mut Bytes32 {
    &mut case.phi
}

/// Sets one bit; the low 252 stay.
fn top_bit(mut case: Case, key: fn(&mut Case) -> &mut Bytes32, bit: u8) -> Option<Case> {
    key(&mut case)[0] |= bit;
    Some(case)
}

fn anchor(b: &mut Bench, mut case: Case, _: usize, spot: Spot) -> Option<Case> {
    turn(b.random, &mut case.anchor, spot);
    Some(case)
}

fn lowest_row(b: &mut Bench, mut case: Case, which: usize, spot: Spot) -> Option<Case> {
    turn(b.random, &mut valued(&mut case, which)?.path[0], spot);
    Some(case)
}

fn highest_row(b: &mut Bench, mut case: Case, which: usize, spot: Spot) -> Option<Case> {
    let path = &mut valued(&mut case, which)?.path;
    turn(b.random, &mut path[DEPTH - 1], spot);
    Some(case)
}

/// Puts a nullifier in with one bit off. Tags, rho values and commitments are
/// made for it, so that only refusals 7, 8 and 12 can tell.
fn nullifier(
    b: &mut Bench,
    mut case: Case,
    which: usize,
    near: Bytes32,
    spot: Spot,
) -> Option<Case> {
    case.nullifiers[which] = near;
    turn(b.random, &mut case.nullifiers[which], spot);
    set_tags(&mut case);
    set_new_rhos(&mut case);
    Some(case)
}

fn own_nullifier(b: &mut Bench, case: Case, which: usize, spot: Spot) -> Option<Case> {
    let own = case.nullifiers[which];
    nullifier(b, case, which, own, spot)
}

/// A judge that compares too little takes it for the spent one.
fn spent_nullifier(b: &mut Bench, case: Case, which: usize, spot: Spot) -> Option<Case> {
    let spent = pick_held(b.random, &b.purse.spent)?.note.nullifier();
    nullifier(b, case, which, spent, spot)
}

/// A judge that compares too little takes the two for equal.
fn first_nullifier(b: &mut Bench, case: Case, which: usize, spot: Spot) -> Option<Case> {
    let first = case.nullifiers[0];
    nullifier(b, case, which, first, spot)
}

/// A note without value has no path to its commitment that would tell.
fn idle_address(b: &mut Bench, mut case: Case, which: usize, spot: Spot) -> Option<Case> {
    turn(b.random, &mut idle(&mut case, which)?.a_pk, spot);
    Some(case)
}

fn tag(b: &mut Bench, mut case: Case, which: usize, spot: Spot) -> Option<Case> {
    turn(b.random, &mut case.tags[which], spot);
    Some(case)
}

fn new_rho(b: &mut Bench, mut case: Case, which: usize, spot: Spot) -> Option<Case> {
    turn(b.random, &mut case.new[which].rho, spot);
    set_commitments(&mut case);
    Some(case)
}

fn commitment(b: &mut Bench, mut case: Case, which: usize, spot: Spot) -> Option<Case> {
    turn(b.random, &mut case.commitments[which], spot);
    Some(case)
}
