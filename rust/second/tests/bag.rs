//! The bag's layout and the lines it prints.

mod common;

use common::Shift;
use second::bag::{explain_bag, judge_bag, read_bag, write_bag, MAX_BAG_BYTES};
use second::seal::{seal_bytes, Gate, Seal};

const REFUSED: [&str; 1] = ["bag 20 0"];

fn open_seal() -> Vec<u8> {
    let seal = Seal {
        gate: Gate::None,
        raw: 1.0,
    };
    seal.to_bytes().to_vec()
}

/// A sound bag with two empty cases: 2 bytes, 3 rows of 9, 25 bytes of seal.
fn sound_bag() -> Vec<u8> {
    write_bag(&open_seal(), &[&[], &[1, 2, 3]])
}

/// The sound bag with one byte replaced.
fn with_byte(offset: usize, byte: u8) -> Vec<u8> {
    let mut bag = sound_bag();
    assert_ne!(bag[offset], byte);
    bag[offset] = byte;
    bag
}

#[test]
fn a_sound_bag_is_read() {
    let bag = sound_bag();
    assert_eq!(bag.len(), 2 + 27 + 25 + 3);
    let read = read_bag(&bag).expect("a sound bag");
    assert_eq!(read.cases, [&[][..], &[1, 2, 3][..]]);
    let expected = [
        "seal 0 0",
        "case 1 0",
        "case 1 0",
        "ledger spent 0 leaves 0 pool 0",
    ];
    assert_eq!(judge_bag(&bag), expected);
}

#[test]
fn a_bag_may_hold_the_seal_alone() {
    let bag = write_bag(&open_seal(), &[]);
    let expected = ["seal 0 0", "ledger spent 0 leaves 0 pool 0"];
    assert_eq!(judge_bag(&bag), expected);
}

#[test]
fn a_bag_has_one_to_eight_rows() {
    let cases: [&[u8]; 8] = [b"a"; 8];
    assert_eq!(judge_bag(&write_bag(&open_seal(), &cases[..7])).len(), 9);
    assert_eq!(judge_bag(&write_bag(&open_seal(), &cases)), REFUSED);
    assert_eq!(judge_bag(&[0, 0]), REFUSED);
}

#[test]
fn every_cut_of_a_bag_is_refused_and_so_is_a_byte_more() {
    let bag = sound_bag();
    for length in 0..bag.len() {
        assert_eq!(judge_bag(&bag[..length]), REFUSED, "{length} bytes");
    }
    assert_eq!(judge_bag(&[&bag[..], &[0]].concat()), REFUSED);
}

#[test]
fn every_breach_of_the_table_is_refused() {
    // The count, and for each row its kind, the four bytes of its offset and
    // the four bytes of its length: no byte may be another one.
    for offset in 0..2 + 27 {
        let byte = sound_bag()[offset];
        for other in [byte ^ 1, byte ^ 0x80, byte.wrapping_add(1), !byte] {
            assert_eq!(judge_bag(&with_byte(offset, other)), REFUSED, "{offset}");
        }
    }
}

#[test]
fn the_seal_comes_first_and_only_once() {
    let swapped = with_byte(2, 2);
    assert_eq!(judge_bag(&swapped), REFUSED);
    let second_seal = with_byte(11, 1);
    assert_eq!(judge_bag(&second_seal), REFUSED);
}

#[test]
fn a_seal_of_another_length_is_refused() {
    for length in [0, 24, 26] {
        let mut seal = open_seal();
        seal.resize(length, 0);
        assert_eq!(judge_bag(&write_bag(&seal, &[b"case"])), REFUSED);
    }
}

#[test]
fn a_seal_that_cannot_be_read_is_refused_with_the_bag() {
    for seal in [seal_bytes(3, 0, 0, 0), seal_bytes(1, 0, 1, 0)] {
        assert_eq!(judge_bag(&write_bag(&seal, &[])), REFUSED);
    }
}

#[test]
fn bodies_that_touch_in_another_order_are_refused() {
    let mut bag = write_bag(&open_seal(), &[b"abc", b"xyz"]);
    let (second, third) = (11, 20);
    for byte in 0..9 {
        bag.swap(second + byte, third + byte);
    }
    assert_eq!(judge_bag(&bag), REFUSED);
}

#[test]
fn a_bag_is_at_most_65536_bytes() {
    let room = MAX_BAG_BYTES - 2 - 18 - 25;
    let longest = write_bag(&open_seal(), &[&vec![7; room]]);
    assert_eq!(longest.len(), 65_536);
    assert_eq!(judge_bag(&longest)[1], "case 1 0");
    let longer = write_bag(&open_seal(), &[&vec![7; room + 1]]);
    assert_eq!(judge_bag(&longer), REFUSED);
}

#[test]
fn a_refused_seal_prints_its_own_line_only() {
    let case = Shift::fresh(1, 2, 1).good_case().to_bytes();
    let one = 1.0f64.to_bits();
    let two = 2.0f64.to_bits();
    let nan = f64::NAN.to_bits();
    for (seal, line) in [
        (seal_bytes(1, two, 0, one), "seal 23 0"),
        (seal_bytes(0, 0, 0, nan), "seal 22 0"),
        (seal_bytes(2, two, one, one), "seal 21 0"),
    ] {
        assert_eq!(judge_bag(&write_bag(&seal, &[&case])), [line]);
    }
}

#[test]
fn a_refused_case_does_not_stop_the_next() {
    let mut shift = Shift::fresh(2, 2, 1);
    let (one, other) = (shift.good_case(), shift.good_case());
    let (bytes, other_bytes) = (one.to_bytes(), other.to_bytes());
    let bag = write_bag(&open_seal(), &[b"", &bytes, &bytes, &other_bytes]);
    let pool = one.vpub_old.0 + other.vpub_old.0;
    let expected = [
        "seal 0 0".to_owned(),
        "case 1 0".to_owned(),
        "case 0 0".to_owned(),
        "case 8 1".to_owned(),
        "case 0 0".to_owned(),
        format!("ledger spent 4 leaves 4 pool {pool}"),
    ];
    assert_eq!(judge_bag(&bag), expected);
}

#[test]
fn an_explained_bag_has_the_row_behind_each_case_that_is_refused_as_spent() {
    let mut shift = Shift::fresh(3, 2, 1);
    let (one, other) = (shift.good_case(), shift.good_case());
    let [bytes, other_bytes] = [&one, &other].map(|case| case.to_bytes());
    let cases: [&[u8]; 6] = [&bytes, &bytes, b"", &other_bytes, &bytes, &other_bytes];
    let bag = write_bag(&open_seal(), &cases);
    let row_among = |rows: &[[u8; 32]], named: [u8; 32]| {
        let below = rows.iter().filter(|row| **row < named);
        format!("row {}", below.count())
    };
    let all = [one.nullifiers, other.nullifiers].concat();
    let expected = [
        "seal 0 0".to_owned(),
        "case 0 0".to_owned(),
        "case 8 1".to_owned(),
        row_among(&one.nullifiers, one.nullifiers[0]),
        "case 1 0".to_owned(),
        "case 0 0".to_owned(),
        "case 8 1".to_owned(),
        row_among(&all, one.nullifiers[0]),
        "case 8 1".to_owned(),
        row_among(&all, other.nullifiers[0]),
        judge_bag(&bag).pop().expect("the ledger's line"),
    ];
    assert_eq!(explain_bag(&bag), expected);
    let is_row = |line: &String| line.starts_with("row ");
    let plain: Vec<String> = expected.into_iter().filter(|line| !is_row(line)).collect();
    assert_eq!(judge_bag(&bag), plain);
}

#[test]
fn a_bag_without_a_spent_nullifier_is_explained_by_the_same_lines() {
    let case = Shift::fresh(4, 2, 1).good_case().to_bytes();
    let refused_seal = seal_bytes(0, 0, 0, f64::NAN.to_bits());
    for bag in [
        write_bag(&open_seal(), &[&case, b""]),
        write_bag(&refused_seal, &[&case, &case]),
        sound_bag()[1..].to_vec(),
    ] {
        assert_eq!(explain_bag(&bag), judge_bag(&bag));
    }
}
