//! Opening, closing a block, and the room that buffers give.

mod common;

use common::Shift;
use second::answer::{Answer, Row};
use second::ledger::{Ledger, MAX_POOL, ROW_BYTES};
use second::tree::{empty_root, Record, DEPTH};

#[test]
fn opening_writes_the_first_roll_row_and_nothing_else() {
    for roll_bytes in [32, 33, 63, 64, 1_000] {
        let (table, roll) = (vec![0xaa; 77], vec![0xbb; roll_bytes]);
        let (ledger, answer) = Ledger::open(table.clone(), roll.clone());
        assert_eq!(answer, Answer::PASSED);
        assert_eq!(ledger.table, table);
        assert_eq!(ledger.roll[..32], empty_root(DEPTH));
        assert_eq!(ledger.roll[32..], roll[32..]);
        assert_eq!((ledger.spent, ledger.anchors, ledger.pool), (0, 1, 0));
        assert_eq!(*ledger.tree.record(), Record::EMPTY);
        assert!(!ledger.is_damaged());
    }
}

#[test]
fn opening_without_a_roll_row_is_refusal_1() {
    for roll_bytes in [0, 1, 31] {
        let (table, roll) = (vec![0xaa; 77], vec![0xbb; roll_bytes]);
        let (ledger, answer) = Ledger::open(table.clone(), roll.clone());
        assert_eq!(answer, Answer::new(1, 0));
        assert_eq!((ledger.table, ledger.roll), (table, roll));
        assert_eq!((ledger.spent, ledger.anchors, ledger.pool), (0, 0, 0));
        assert_eq!(*ledger.tree.record(), Record::EMPTY);
    }
}

#[test]
fn a_table_without_rows_opens_but_takes_no_case() {
    let mut shift = Shift::fresh(1, 0, 1);
    assert!(!shift.ledger.is_damaged());
    let file = shift.good_case().to_bytes();
    let answer = second::judge::judge(&mut shift.ledger, &file);
    assert_eq!(answer, Answer::new(3, 0));
}

#[test]
fn closing_appends_the_root_even_if_it_is_the_last_row_s() {
    let mut shift = Shift::fresh(2, 4, 4);
    shift.close();
    shift.pass();
    let before = shift.ledger.clone();
    shift.close();
    let rows = shift.ledger.anchor_rows();
    assert_eq!(rows[0], empty_root(DEPTH));
    assert_eq!(rows[1], rows[0]);
    assert_eq!(rows[2], before.tree.root());
    assert_eq!(shift.ledger.roll[..64], before.roll[..64]);
    assert_eq!(shift.ledger.roll[96..], before.roll[96..]);
    assert_eq!(shift.ledger.table, before.table);
    assert_eq!(shift.ledger.tree, before.tree);
    assert_eq!((shift.ledger.spent, shift.ledger.pool), (2, before.pool));
}

#[test]
fn closing_without_a_free_row_is_refusal_3() {
    let mut shift = Shift::fresh(3, 4, 2);
    shift.close();
    let before = shift.ledger.clone();
    assert_eq!(shift.ledger.close_block(), Answer::new(3, 0));
    assert_eq!(shift.ledger, before);
}

#[test]
fn closing_a_damaged_ledger_is_refusal_2_before_3() {
    let mut shift = Shift::fresh(4, 4, 1);
    shift.ledger.pool = MAX_POOL + 1;
    let before = shift.ledger.clone();
    assert_eq!(shift.ledger.close_block(), Answer::new(2, 0));
    assert_eq!(shift.ledger, before);
}

#[test]
fn the_roll_has_room_for_4096_rows_at_most() {
    let (mut ledger, _) = Ledger::open(Vec::new(), vec![0; 140_000]);
    assert_eq!(ledger.roll_room(), 4_096);
    for _ in 1..4_096 {
        assert_eq!(ledger.close_block(), Answer::PASSED);
    }
    assert_eq!(ledger.close_block(), Answer::new(3, 0));
    assert_eq!(ledger.anchors, 4_096);
    ledger.anchors = 4_097;
    assert!(ledger.is_damaged());
}

#[test]
fn a_roll_of_fewer_rows_has_room_for_those() {
    for (bytes, rows) in [(1_024 * 32, 1_024), (131_071, 4_095), (131_072, 4_096)] {
        let (mut ledger, _) = Ledger::open(Vec::new(), vec![0; bytes]);
        assert_eq!(ledger.roll_room(), rows);
        ledger.anchors = rows - 1;
        assert_eq!(ledger.close_block(), Answer::PASSED);
        assert_eq!(ledger.close_block(), Answer::new(3, 0));
        ledger.anchors = rows + 1;
        assert_eq!(ledger.close_block(), Answer::new(2, 0));
    }
}

#[test]
fn an_open_block_is_no_anchor_and_a_closed_one_is() {
    let mut shift = Shift::busy(5);
    let anchor = shift.purse.open_root().expect("an open block");
    let case = shift.purse.case_at(&mut shift.random, anchor);
    let mut ledger = shift.ledger.clone();
    let file = case.to_bytes();
    assert_eq!(second::judge::judge(&mut ledger, &file), Answer::new(6, 0));
    assert_eq!(ledger.close_block(), Answer::PASSED);
    assert_eq!(second::judge::judge(&mut ledger, &file), Answer::PASSED);
}

#[test]
fn each_used_row_of_the_table_is_found_where_it_stands() {
    let ledger = Shift::busy(6).ledger;
    let rows = ledger.spent_rows();
    assert_eq!(rows.len(), 14);
    for (index, row) in rows.iter().enumerate() {
        assert_eq!(ledger.row_of(row), Some(Row(index as u64)));
        assert!(ledger.has_spent(row));
        for byte in [0, ROW_BYTES - 1] {
            let mut near = *row;
            near[byte] ^= 1;
            assert_eq!(ledger.row_of(&near), None, "off in byte {byte}");
            assert!(!ledger.has_spent(&near));
        }
    }
}

#[test]
fn a_row_past_the_count_is_not_found() {
    let mut ledger = Shift::busy(7).ledger;
    let rows = ledger.spent_rows().to_vec();
    let [.., before, last] = &rows[..] else {
        panic!("a ledger in use has rows");
    };
    ledger.spent -= 1;
    assert_eq!(ledger.row_of(last), None);
    assert_eq!(ledger.row_of(before), Some(Row(ledger.spent - 1)));
    ledger.spent = 0;
    assert_eq!(ledger.row_of(before), None);
}
