//! Runs for depots: counts at the limits of 65,536 nullifiers and 4,096 anchors
//! and at those of before, 2,048 and 1,024; spent nullifiers and damage far down;
//! each pair of rows in short tables; each carry of the tree that a table has room
//! for. Every long tape has them all, beside the entries that it was asked for.
//!
//! The ledgers are made by rule. What they have to answer is stated here and does
//! not come from the judge's own limits.

use crate::answer::{Answer, Row};
use crate::case::{Amount, Case};
use crate::ledger::ROW_BYTES;
use crate::random::Random;
use crate::tape::Fill;
use crate::tree::{parent, Node, DEPTH};
use crate::wallet::Note;

use super::by_rule::{
    among, any_rows, depot, depot_of_anchors, number_of, one_row, rising, rising_through, tail_of,
    Depot,
};
use super::purse::Purse;
use super::rows::{at_both_places, judge_notes};
use super::Maker;

use Step::{Ask, Close, Look, Memory};

/// The most nullifiers.
const MOST: usize = 65_536;

/// The most nullifiers that leave room for a case.
const ROOMY: usize = 65_534;

/// The most anchors.
const MOST_ANCHORS: usize = 4_096;

/// All of them.
pub(super) fn depots(maker: &mut Maker) {
    for run in &AT_THE_LIMITS {
        run.play(maker);
    }
    anchors_at_the_end(maker);
    beyond_all_rows(maker);
    for row in [0, 32_767, 32_768, 65_533] {
        spent_far_down(maker, row);
    }
    pairs_with_room(maker);
    pairs_of_a_full_table(maker);
    for rows in [2, 4, 6, 8, 10, 12, 18, 20, 26] {
        walk(maker, rows);
    }
    walk_by_first_bytes(maker);
    for level in 1..=16 {
        carry(maker, level);
    }
}

/// What is done to a depot, and the number that it has to be answered.
enum Step {
    /// A right case.
    Ask(u8),
    /// A closing.
    Close(u8),
    /// A look at the ledger.
    Look,
    /// A look at the memory.
    Memory,
}

/// A depot and what is done to it.
struct Run {
    name: &'static str,
    depot: Depot,
    steps: &'static [Step],
}

const fn rows(count: usize) -> usize {
    count * ROW_BYTES
}

/// Counts at the limits, where just enough rows are lent, more, and fewer.
const AT_THE_LIMITS: [Run; 20] = [
    Run {
        name: "depot-65534-has-room",
        depot: depot(65_534, rows(65_536)),
        steps: &[Ask(0), Look, Memory, Ask(3), Look, Memory],
    },
    Run {
        name: "depot-room-in-a-longer-table",
        depot: depot(65_534, rows(65_538) + 31),
        steps: &[Ask(0), Memory, Ask(3), Look, Memory],
    },
    Run {
        name: "depot-65536-has-none",
        depot: depot(65_536, rows(65_536)),
        steps: &[Ask(3), Memory, Close(0), Look],
    },
    Run {
        name: "depot-65536-in-a-longer-table",
        depot: depot(65_536, rows(65_538)),
        steps: &[Ask(3), Close(0), Look],
    },
    Run {
        name: "depot-65534-one-row-short",
        depot: depot(65_534, rows(65_535)),
        steps: &[Ask(3), Close(0)],
    },
    Run {
        name: "depot-65534-one-byte-short",
        depot: depot(65_534, rows(65_536) - 1),
        steps: &[Ask(3), Close(0)],
    },
    Run {
        name: "depot-65536-in-65535-rows",
        depot: depot(65_536, rows(65_535)),
        steps: &[Ask(2), Close(2)],
    },
    Run {
        name: "depot-65537-is-damage",
        depot: depot(65_537, rows(65_538)),
        steps: &[Ask(2), Close(2), Look, Memory],
    },
    Run {
        name: "depot-65538-is-damage",
        depot: depot(65_538, rows(65_538)),
        steps: &[Ask(2), Close(2), Look, Memory],
    },
    Run {
        name: "depot-2048-in-2050-rows",
        depot: depot(2_048, rows(2_050)),
        steps: &[Ask(0), Ask(3), Close(0), Look],
    },
    Run {
        name: "depot-2050-in-2052-rows",
        depot: depot(2_050, rows(2_052)),
        steps: &[Close(0), Ask(0), Look],
    },
    Run {
        name: "depot-1024-anchors-in-1026-rows",
        depot: depot_of_anchors(1_024, rows(1_026)),
        steps: &[Close(0), Close(0), Close(3), Look],
    },
    Run {
        name: "depot-1025-anchors",
        depot: depot_of_anchors(1_025, rows(1_026)),
        steps: &[Ask(0), Close(0), Look],
    },
    Run {
        name: "depot-4095-anchors",
        depot: depot_of_anchors(4_095, rows(4_096)),
        steps: &[Close(0), Memory, Close(3), Look, Memory],
    },
    Run {
        name: "depot-4095-anchors-in-a-longer-roll",
        depot: depot_of_anchors(4_095, rows(4_098) + 31),
        steps: &[Close(0), Memory, Close(3), Look, Memory],
    },
    Run {
        name: "depot-4095-anchors-one-byte-short",
        depot: depot_of_anchors(4_095, rows(4_096) - 1),
        steps: &[Close(3), Look],
    },
    Run {
        name: "depot-4096-anchors",
        depot: depot_of_anchors(4_096, rows(4_096)),
        steps: &[Close(3), Ask(0), Look],
    },
    Run {
        name: "depot-4096-anchors-in-a-longer-roll",
        depot: depot_of_anchors(4_096, rows(4_098) + 31),
        steps: &[Close(3), Look],
    },
    Run {
        name: "depot-4096-anchors-in-4095-rows",
        depot: depot_of_anchors(4_096, rows(4_095)),
        steps: &[Close(2), Ask(2), Look],
    },
    Run {
        name: "depot-4097-anchors",
        depot: depot_of_anchors(4_097, rows(4_098)),
        steps: &[Close(2), Ask(2), Look],
    },
];

impl Run {
    fn play(&self, maker: &mut Maker) {
        maker.name(self.name);
        set_purse(maker);
        self.depot.plant(maker);
        for step in self.steps {
            match step {
                Ask(number) => ask(maker, *number),
                Close(number) => close(maker, *number),
                Look => maker.look_at_ledger(),
                Memory => maker.look_at_memory("memory of a depot"),
            }
        }
        maker.leave_ledger();
    }
}

fn set_purse(maker: &mut Maker) {
    maker.purse = Purse::from_elsewhere(&mut maker.random, &[Amount(1), Amount(2)]);
}

/// A right case of a purse from elsewhere.
fn right_case(maker: &mut Maker) -> Case {
    set_purse(maker);
    maker.purse.good_case(&mut maker.random)
}

/// A right case, which this ledger has to answer so.
fn ask(maker: &mut Maker, number: u8) {
    let case = maker.purse.good_case(&mut maker.random);
    judge(maker, &case, Answer::new(number, 0));
}

fn judge(maker: &mut Maker, case: &Case, answer: Answer) {
    maker.ask_case(&case.to_bytes(), answer, "a depot's case");
    if answer.is_pass() {
        maker.purse.settle(case);
    }
}

fn close(maker: &mut Maker, number: u8) {
    let answer = maker.ask(b'B', &[], Some("a depot's block".to_owned()));
    assert_eq!(answer, Answer::new(number, 0), "closing a depot's block");
}

/// An anchor in the last roll row that can be used, then in the row behind it.
fn anchors_at_the_end(maker: &mut Maker) {
    for (name, at, number) in [
        ("depot-anchor-in-roll-row-4095", MOST_ANCHORS - 1, 0),
        ("depot-anchor-past-the-roll", MOST_ANCHORS, 6),
    ] {
        maker.name(name);
        let case = right_case(maker);
        let depot = depot_of_anchors(MOST_ANCHORS, rows(MOST_ANCHORS + 2));
        depot.plant(maker);
        let mut fill = any_rows(&mut maker.random, depot.roll_rows());
        let before = fill.step.wrapping_mul(at as u64);
        fill.start = number_of(&case.anchor).wrapping_sub(before);
        fill.tail = tail_of(&case.anchor);
        maker.fill_roll(&fill);
        judge(maker, &case, Answer::new(number, 0));
        maker.look_at_ledger();
        maker.leave_ledger();
    }
}

/// Both nullifiers of a case below all rows, which have to move, and above all.
fn beyond_all_rows(maker: &mut Maker) {
    for name in ["depot-below-all-rows", "depot-above-all-rows"] {
        maker.name(name);
        let case = right_case(maker);
        let numbers = case.nullifiers.map(|row| number_of(&row));
        let (low, high) = (numbers[0].min(numbers[1]), numbers[0].max(numbers[1]));
        let mut fill = any_rows(&mut maker.random, MOST);
        let is_below = name == "depot-below-all-rows";
        let span = if is_below { u64::MAX - high } else { low };
        fill.step = span / (MOST as u64 + 1);
        fill.start = if is_below { high + fill.step } else { 0 };
        depot(ROOMY, rows(MOST)).plant_rows(maker, &fill);
        judge(maker, &case, Answer::PASSED);
        maker.look_at_memory("memory of a depot");
    }
}

/// A nullifier in this row, at either place; then rows that are off it in the last
/// byte alone: it is not spent.
fn spent_far_down(maker: &mut Maker, at: usize) {
    maker.name(&format!("depot-spent-in-row-{at}"));
    set_purse(maker);
    let notes: [Note; 2] = std::array::from_fn(|_| Note::random(&mut maker.random, Amount::ZERO));
    let mut fill = rising_through(MOST, at, &notes[0].nullifier());
    depot(ROOMY, rows(MOST)).plant_rows(maker, &fill);
    at_both_places(maker, &notes[0], &notes[1], Row(at as u64));
    maker.name(&format!("depot-beside-row-{at}"));
    fill.tail[23] ^= 1;
    maker.fill_table(&fill);
    judge_notes(maker, [&notes[0], &notes[1]], Answer::PASSED);
    if at + 1 == ROOMY {
        maker.look_at_memory("memory of a depot");
    }
}

/// Makes the row behind this one begin with less than it, though it ends with more.
fn let_fall(maker: &mut Maker, fill: &Fill, at: usize) {
    maker.fill_table(&Fill {
        first: at as u32 + 1,
        rows: 1,
        start: number_of(&fill.row(at as u64)) - 1,
        step: 0,
        tail: [255; 24],
    });
}

/// Makes a row what the rule says again.
fn mend(maker: &mut Maker, fill: &Fill, at: usize) {
    maker.fill_table(&one_row(at, &fill.row(at as u64)));
}

/// Each row of a table of 26 but the last in its turn has a first byte above the
/// next one's, while all other bytes go on rising.
fn walk_by_first_bytes(maker: &mut Maker) {
    maker.name("walk-by-first-bytes");
    set_purse(maker);
    let fill = Fill {
        start: 0x0180 << 48,
        step: 1 << 40,
        ..rising(&mut maker.random, 26)
    };
    depot(26, rows(26)).plant_rows(maker, &fill);
    close(maker, 0);
    for at in 0..25 {
        let mut row = fill.row(at as u64);
        row[0] += 1;
        maker.fill_table(&one_row(at, &row));
        close(maker, 2);
        mend(maker, &fill, at);
    }
    close(maker, 0);
    maker.leave_ledger();
}

/// 65,534 nullifiers of which one pair does not rise: the last, one in the middle,
/// and two that are not both in use.
fn pairs_with_room(maker: &mut Maker) {
    maker.name("depot-last-pair-equal");
    set_purse(maker);
    let fill = depot(ROOMY, rows(MOST)).plant(maker);
    let last = ROOMY - 1;
    maker.fill_table(&one_row(last, &fill.row(last as u64 - 1)));
    close(maker, 2);
    maker.name("depot-last-pair-falls");
    let_fall(maker, &fill, last - 1);
    close(maker, 2);
    ask(maker, 2);
    mend(maker, &fill, last);
    maker.name("depot-middle-pair-falls");
    let_fall(maker, &fill, MOST / 2 - 1);
    close(maker, 2);
    mend(maker, &fill, MOST / 2);
    maker.name("depot-pair-past-the-used-falls");
    for at in [ROOMY - 1, ROOMY] {
        let_fall(maker, &fill, at);
        close(maker, 0);
        mend(maker, &fill, at + 1);
    }
    maker.look_at_ledger();
}

/// 65,536 nullifiers of which one pair falls: damage is asked before room.
fn pairs_of_a_full_table(maker: &mut Maker) {
    for at in [0, MOST - 3, MOST - 2] {
        maker.name(&format!("depot-full-pair-{at}-falls"));
        set_purse(maker);
        let fill = depot(MOST, rows(MOST)).plant(maker);
        let_fall(maker, &fill, at);
        ask(maker, 2);
        close(maker, 2);
    }
}

/// How a tail of bytes 0x80 may be followed: one byte of the next tail, all that
/// are behind it, and what a closing is then answered.
const TAILS: [(u8, u8, u8); 3] = [(0x81, 0, 0), (0x7f, 255, 2), (0x80, 0x80, 2)];

/// Each pair of a short table in its turn: the same number, and then more, less
/// and the same; then a lesser number. The tables have fewer rows than a look that
/// takes eight at a time, and up to three times as many, with some left or none.
fn walk(maker: &mut Maker, count: usize) {
    maker.name(&format!("walk-of-{count}-rows"));
    set_purse(maker);
    let depot = Depot {
        roll: rows(40),
        ..depot(count, rows(count))
    };
    let fill = Fill {
        tail: [0x80; 24],
        ..rising(&mut maker.random, count)
    };
    depot.plant_rows(maker, &fill);
    close(maker, 0);
    for at in 0..count - 1 {
        for (byte, behind, number) in TAILS {
            let place = maker.random.below(24);
            let mut tail = fill.tail;
            tail[place] = byte;
            tail[place + 1..].fill(behind);
            let mut row = fill.row(at as u64);
            row[8..].copy_from_slice(&tail);
            maker.fill_table(&one_row(at + 1, &row));
            close(maker, number);
        }
        let_fall(maker, &fill, at);
        close(maker, 2);
        mend(maker, &fill, at + 1);
    }
    close(maker, 0);
    maker.leave_ledger();
}

/// A case that brings a tree to 2^level leaves. The leaves before it are the rows
/// of the table, so whoever has those can work out the root.
fn carry(maker: &mut Maker, level: usize) {
    maker.name(&format!("carry-to-2-to-the-{level}"));
    set_purse(maker);
    let leaves = (1 << level) - 2;
    let depot = depot(leaves, rows(leaves + 4));
    let fill = rising(&mut maker.random, depot.table_rows());
    let all: Vec<Node> = (0..leaves as u64).map(|leaf| fill.row(leaf)).collect();
    let mut nodes = std::array::from_fn(|_| maker.random.bytes());
    set_waiting(&mut nodes, &all);
    depot.plant_record(maker, &fill, nodes);
    ask(maker, 0);
    close(maker, 0);
    maker.look_at_ledger();
    if [2, 15].contains(&level) {
        ask(maker, 0);
        maker.look_at_ledger();
    }
    if level == 16 {
        maker.look_at_memory("memory of a depot");
    }
    maker.leave_ledger();
}

/// Sets the nodes that wait after these leaves, each from the leaves below it.
fn set_waiting(nodes: &mut [Node; DEPTH + 1], leaves: &[Node]) {
    let mut rest = leaves;
    for level in (0..DEPTH).rev() {
        if let Some((below, behind)) = rest.split_at_checked(1 << level) {
            nodes[level] = top_of(below);
            rest = behind;
        }
    }
}

/// The node above these leaves, which are 2^k in number.
fn top_of(leaves: &[Node]) -> Node {
    match leaves {
        [leaf] => *leaf,
        _ => {
            let (left, right) = leaves.split_at(leaves.len() / 2);
            parent(&top_of(left), &top_of(right))
        }
    }
}

/// More rows used than a look at the rows shows.
pub(super) fn rows_not_shown(maker: &mut Maker) {
    maker.name("more-rows-than-shown");
    set_purse(maker);
    let depot = Depot {
        anchors: 1_025,
        roll: rows(1_026),
        ..depot(2_050, rows(2_052))
    };
    depot.plant(maker);
    maker.look_at_rows();
    maker.leave_ledger();
}

/// A sound depot, often at a limit.
fn random_depot(random: &mut Random) -> Depot {
    let spent = if random.one_in(2) {
        MOST - 2 * random.below(3)
    } else {
        2 + 2 * random.below(MOST / 2)
    };
    let anchors = if random.one_in(2) {
        MOST_ANCHORS - random.below(3)
    } else {
        3 + random.below(MOST_ANCHORS - 3)
    };
    Depot {
        spent,
        table: rows(spent + random.below(3)) + random.below(ROW_BYTES),
        anchors,
        roll: rows(anchors + random.below(3)) + random.below(ROW_BYTES),
    }
}

/// A few things done to any depot.
pub(super) fn any_depot(maker: &mut Maker) {
    set_purse(maker);
    let taken = maker.purse.take_spent(&mut maker.random);
    let depot = random_depot(&mut maker.random);
    let fill = depot.plant(maker);
    if let Some(row) = taken {
        maker.fill_table(&among(&fill, depot.spent, &row));
    }
    for _ in 0..2 {
        maker.bent_case();
        maker.good_case();
        maker.close_block();
    }
    maker.look_at_ledger();
    if maker.random.one_in(4) {
        maker.look_at_memory("memory of a depot");
    }
}
