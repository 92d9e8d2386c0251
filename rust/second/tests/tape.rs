//! Tapes: what each entry prints, and what breaks a tape.

mod common;

use common::Shift;
use second::bytes::hex;
use second::ledger::{Ledger, ROW_BYTES};
use second::seal::{seal_bytes, Gate, Seal};
use second::sha256::sha256;
use second::tape::{
    draft_body, entry, judged_file, keep_body, plant_body, play, read_plant, Fill, Player,
    MAX_BODY_BYTES, MAX_DESK_BYTES, MAX_ROLL_BYTES, MAX_TABLE_BYTES,
};
use second::tree::{empty_root, Tree, DEPTH};

const BROKEN: [&str; 1] = ["tape 50 0"];

fn opening(table: u32, roll: u32) -> Vec<u8> {
    let body = [table.to_le_bytes(), roll.to_le_bytes()].concat();
    entry(b'O', &body)
}

fn sealing(gain: f64, offset: f64, seal: &[u8]) -> Vec<u8> {
    let numbers = [gain.to_le_bytes(), offset.to_le_bytes()].concat();
    entry(b'S', &[&numbers[..], seal].concat())
}

fn planting(ledger: &Ledger) -> Vec<u8> {
    entry(b'P', &plant_body(ledger))
}

fn ledger_line(counts: &str, root: &[u8]) -> String {
    format!("ledger {counts} root {}", hex(root))
}

#[test]
fn an_empty_tape_prints_nothing() {
    assert!(play(&[]).is_empty());
}

#[test]
fn an_entry_is_a_kind_a_length_and_a_body() {
    assert_eq!(entry(b'C', &[9; 258])[..7], [b'C', 2, 1, 0, 0, 9, 9]);
}

#[test]
fn before_the_first_ledger_all_is_zero() {
    let case = Shift::fresh(1, 2, 1).good_case().to_bytes();
    let tape = [
        entry(b'L', &[]),
        entry(b'R', &[]),
        entry(b'C', &case),
        entry(b'C', &[]),
        entry(b'B', &[]),
    ];
    let counts = "spent 0 leaves 0 anchors 0 pool 0";
    let expected = [
        &ledger_line(counts, &empty_root(DEPTH)),
        "case 2 0",
        "case 1 0",
        "block 2 0",
    ];
    assert_eq!(play(&tape.concat()), expected);
}

#[test]
fn a_short_day_prints_its_lines() {
    let mut shift = Shift::fresh(2, 4, 2);
    let case = shift.good_case();
    let file = case.to_bytes();
    let tape = [
        opening(128, 64),
        entry(b'C', &file),
        entry(b'C', &file),
        entry(b'B', &[]),
        entry(b'B', &[]),
        entry(b'L', &[]),
        entry(b'R', &[]),
    ];
    let root = second::tree::root_of_leaves(&case.commitments);
    let mut spent = case.nullifiers;
    spent.sort();
    let counts = format!("spent 2 leaves 2 anchors 2 pool {}", case.vpub_old.0);
    let expected = [
        "open 0 0".to_owned(),
        "case 0 0".to_owned(),
        "case 8 1".to_owned(),
        format!("row {}", usize::from(case.nullifiers[0] == spent[1])),
        "block 0 0".to_owned(),
        "block 3 0".to_owned(),
        ledger_line(&counts, &root),
        format!("spent {}", hex(&spent[0])),
        format!("spent {}", hex(&spent[1])),
        format!("anchor {}", hex(&empty_root(DEPTH))),
        format!("anchor {}", hex(&root)),
    ];
    assert_eq!(play(&tape.concat()), expected);
}

#[test]
fn a_case_that_is_refused_as_spent_is_followed_by_its_row_and_no_other_one_is() {
    let mut shift = Shift::busy(5);
    let rows = shift.ledger.spent_rows().to_vec();
    let file = shift.good_case().to_bytes();
    let mut tape = planting(&shift.ledger);
    let mut expected = vec!["plant 0 0".to_owned()];
    for (index, row) in rows.iter().enumerate() {
        for (place, at) in [(1, 48), (2, 80)] {
            let mut spent = file.clone();
            spent[at..at + ROW_BYTES].copy_from_slice(row);
            tape.extend(entry(b'C', &spent));
            expected.extend([format!("case 8 {place}"), format!("row {index}")]);
        }
    }
    // Nothing of a row is kept for the answers that follow.
    tape.extend([entry(b'C', &[]), entry(b'B', &[]), entry(b'C', &file)].concat());
    expected.extend(["case 1 0", "block 0 0", "case 0 0"].map(str::to_owned));
    assert_eq!(play(&tape), expected);
}

/// The desk's line with this answer over these bytes.
fn desk_line(answer: &str, buffer: &[u8]) -> String {
    format!("desk {answer} {}", hex(&sha256(buffer)))
}

/// A `D` entry with a buffer of this length.
fn drafting(length: u32, draft: &[u8]) -> Vec<u8> {
    entry(b'D', &[&length.to_le_bytes(), draft].concat())
}

/// A file with zero bytes in place of the nullifiers.
fn without_nullifiers(file: &[u8]) -> Vec<u8> {
    let mut draft = file.to_vec();
    draft[48..112].fill(0);
    draft
}

#[test]
fn a_draft_is_written_and_then_judged_as_the_case_that_it_has_become() {
    let mut shift = Shift::fresh(7, 4, 2);
    let case = shift.good_case();
    let file = case.to_bytes();
    let length = file.len() as u32;
    let draft = without_nullifiers(&file);
    let tape = [
        drafting(length, &draft),
        opening(128, 64),
        drafting(length, &draft),
        drafting(length, &file),
        entry(b'C', &file),
        entry(b'B', &[]),
    ];
    let written = desk_line("0 0", &file);
    let row = format!(
        "row {}",
        usize::from(case.nullifiers[0] > case.nullifiers[1])
    );
    let expected = [
        &written,
        "case 2 0",
        "open 0 0",
        &written,
        "case 0 0",
        &written,
        "case 8 1",
        &row,
        "case 8 1",
        &row,
        "block 0 0",
    ];
    assert_eq!(play(&tape.concat()), expected);
}

#[test]
fn a_refused_draft_prints_its_untouched_buffer_and_changes_nothing() {
    let mut shift = Shift::fresh(8, 4, 2);
    let file = shift.good_case().to_bytes();
    let length = file.len();
    let mut misformed = file.clone();
    misformed[length - 32] |= 0x10;
    let looks = [entry(b'L', &[]), entry(b'R', &[]), entry(b'M', &[])].concat();
    let before = play(&[opening(128, 64), looks.clone()].concat());
    let drafts = [
        drafting(length as u32, &misformed),
        drafting(length as u32 - 1, &file),
        drafting(length as u32, &file[1..]),
        drafting(0, &[]),
        drafting(4_352, &file),
    ];
    let tape = [opening(128, 64), drafts.concat(), looks].concat();
    let lent = |length: usize| vec![0xa5; length];
    let refusals = [
        desk_line("9 3", &lent(length)),
        desk_line("1 0", &lent(length - 1)),
        desk_line("1 0", &lent(length)),
        desk_line("1 0", &[]),
        desk_line("1 0", &lent(4_352)),
    ];
    let expected = [&before[..1], &refusals, &before[1..]].concat();
    assert_eq!(play(&tape), expected);
}

#[test]
fn a_draft_s_body_lies_as_agreed() {
    let body = draft_body(0x0102, &[7, 8]);
    assert_eq!(body, [2, 1, 0, 0, 7, 8]);
    let case = Shift::fresh(9, 4, 2).good_case();
    let file = case.to_bytes();
    let body = draft_body(file.len(), &without_nullifiers(&file));
    assert_eq!(judged_file(b'D', &body).as_deref(), Some(&file[..]));
    assert_eq!(judged_file(b'C', &[1, 2]).as_deref(), Some(&[1, 2][..]));
    assert_eq!(judged_file(b'D', &body[..body.len() - 1]), None);
    assert_eq!(judged_file(b'D', &[0; 3]), None);
    assert_eq!(judged_file(b'B', &[]), None);
}

#[test]
fn a_draft_may_have_any_length_and_its_buffer_up_to_4352_bytes() {
    assert_eq!(MAX_DESK_BYTES, 4_352);
    let longest = drafting(1, &[0; MAX_BODY_BYTES - 4]);
    assert_eq!(play(&longest), [desk_line("1 0", &[0xa5])]);
    assert_broken(&[
        entry(b'D', &[]),
        entry(b'D', &[0; 3]),
        drafting(4_353, &[]),
        drafting(4_353, &[0; 4_210]),
        drafting(u32::MAX, &[]),
        drafting(1 << 16, &[]),
        drafting(0, &[0; MAX_BODY_BYTES - 3]),
    ]);
}

#[test]
fn a_spent_nullifier_in_a_full_table_prints_no_row() {
    let mut shift = Shift::busy(6);
    let mut case = shift.good_case();
    case.nullifiers[0] = shift.ledger.spent_rows()[9];
    let entered = shift.ledger.spent as usize;
    shift.ledger.table.truncate((entered + 1) * ROW_BYTES);
    let tape = [planting(&shift.ledger), entry(b'C', &case.to_bytes())];
    assert_eq!(play(&tape.concat()), ["plant 0 0", "case 3 0"]);
}

#[test]
fn a_refused_opening_leaves_an_all_zero_ledger() {
    let tape = [opening(128, 31), entry(b'L', &[]), entry(b'B', &[])];
    let counts = "spent 0 leaves 0 anchors 0 pool 0";
    let expected = [
        "open 1 0",
        &ledger_line(counts, &empty_root(DEPTH)),
        "block 2 0",
    ];
    assert_eq!(play(&tape.concat()), expected);
}

/// The line about a memory of these bytes.
fn memory_of(table: &[u8], roll: &[u8], nodes: &[u8]) -> String {
    let [table, roll, nodes] = [table, roll, nodes].map(|bytes| hex(&sha256(bytes)));
    format!("memory {table} {roll} {nodes}")
}

/// A ledger of ones on buffers of ones, looked at, opened afresh as it stands,
/// and looked at again.
fn opening_on_ones(table: usize, roll: usize) -> Vec<u8> {
    let lengths = [table, roll].map(|length| (length as u32).to_le_bytes());
    let ones = [255; 988];
    let body = [&ones[..], &lengths.concat(), &vec![255; table + roll]].concat();
    let bare = [b'M', b'F', b'M', b'L'].map(|kind| entry(kind, &[]));
    [&entry(b'P', &body)[..], &bare.concat()].concat()
}

#[test]
fn an_opening_on_the_lent_bytes_writes_the_roll_s_first_row_alone() {
    let root = empty_root(DEPTH);
    let opened = [&root[..], &[255; 39]].concat();
    let expected = [
        "plant 0 0",
        &memory_of(&[255; 70], &[255; 71], &[255; 960]),
        "open 0 0",
        &memory_of(&[255; 70], &opened, &[0; 960]),
        &ledger_line("spent 0 leaves 0 anchors 1 pool 0", &root),
    ];
    assert_eq!(play(&opening_on_ones(70, 71)), expected);
}

#[test]
fn a_refused_opening_on_the_lent_bytes_writes_none_of_them() {
    let expected = [
        "plant 0 0",
        &memory_of(&[255; 70], &[255; 31], &[255; 960]),
        "open 1 0",
        &memory_of(&[255; 70], &[255; 31], &[0; 960]),
        &ledger_line("spent 0 leaves 0 anchors 0 pool 0", &empty_root(DEPTH)),
    ];
    assert_eq!(play(&opening_on_ones(70, 31)), expected);
}

#[test]
fn seals_print_the_pull_when_they_pass() {
    let seal = |gate, raw| Seal { gate, raw }.to_bytes();
    let tape = [
        sealing(0.5, 1.0, &seal(Gate::AtLeast(51.0), 100.0)),
        sealing(0.5, 1.0, &seal(Gate::Between(40.0, 50.0), 100.0)),
        sealing(1.0, -0.0, &seal(Gate::AtLeast(0.0), -0.0)),
        sealing(1.0, 0.0, &seal(Gate::None, f64::NAN)),
        sealing(1.0, 0.0, &seal(Gate::AtLeast(f64::NAN), 1.0)),
        sealing(1.0, 0.0, &seal_bytes(3, 0, 0, 0)),
        sealing(1.0, 0.0, &seal_bytes(1, 0, 1 << 63, 0)),
    ];
    let expected = [
        "seal 0 0 4049800000000000",
        "seal 23 0",
        "seal 0 0 8000000000000000",
        "seal 22 0",
        "seal 21 0",
        "seal 20 0",
        "seal 20 0",
    ];
    assert_eq!(play(&tape.concat()), expected);
}

#[test]
fn any_ledger_can_be_planted() {
    let mut shift = Shift::busy(3);
    shift.ledger.pool = u64::MAX - 4;
    let planted = read_plant(&plant_body(&shift.ledger)).expect("a sound body");
    assert_eq!(planted.table, shift.ledger.table);
    assert_eq!(planted.roll, shift.ledger.roll);
    assert_eq!(planted.tree.record(), shift.ledger.tree.record());
    assert_eq!(planted.tree.leaves(), None);
    let tape = [planting(&shift.ledger), entry(b'L', &[])].concat();
    let counts = "spent 14 leaves 14 anchors 4 pool 18446744073709551611";
    let root = shift.ledger.tree.root();
    let expected = ["plant 0 0", &ledger_line(counts, &root)];
    assert_eq!(play(&tape), expected);
}

#[test]
fn a_plant_s_body_lies_as_agreed() {
    let mut ledger = Ledger::zeroed(vec![1, 2], vec![3, 4, 5]);
    (ledger.spent, ledger.anchors, ledger.pool) = (6, 7, u64::MAX - 7);
    let body = plant_body(&ledger);
    assert_eq!(body[..8], 6u64.to_le_bytes());
    assert_eq!(body[8..16], 7u64.to_le_bytes());
    assert_eq!(body[16..24], [248, 255, 255, 255, 255, 255, 255, 255]);
    assert_eq!(body[24..988], [0; 964]);
    assert_eq!(body[988..992], 2u32.to_le_bytes());
    assert_eq!(body[992..996], 3u32.to_le_bytes());
    assert_eq!(body[996..], [1, 2, 3, 4, 5]);
}

#[test]
fn rows_beyond_the_buffers_are_not_printed() {
    let mut ledger = Ledger::zeroed(vec![1; 3 * ROW_BYTES + 31], vec![2; ROW_BYTES + 5]);
    (ledger.spent, ledger.anchors) = (u64::MAX, 1 << 40);
    let tape = [planting(&ledger), entry(b'R', &[])].concat();
    let spent = format!("spent {}", "01".repeat(32));
    let anchor = format!("anchor {}", "02".repeat(32));
    let expected = ["plant 0 0", &spent, &spent, &spent, &anchor];
    assert_eq!(play(&tape), expected);
}

/// What the memory line of a ledger must be.
fn memory_line(ledger: &Ledger) -> String {
    let record = ledger.tree.record().to_bytes();
    memory_of(&ledger.table, &ledger.roll, &record[4..])
}

#[test]
fn a_look_at_the_memory_shows_spare_bytes_and_unused_nodes() {
    let shift = Shift::busy(4);
    let sound = shift.ledger;
    let mut spare_table = sound.clone();
    *spare_table.table.last_mut().expect("a table") ^= 1;
    let mut spare_roll = sound.clone();
    *spare_roll.roll.last_mut().expect("a roll") ^= 1;
    let mut record = sound.tree.record().clone();
    assert!(!record.is_waiting(29));
    record.nodes[29][31] ^= 1;
    let mut unused_node = sound.clone();
    unused_node.tree = Tree::planted(record);
    let ledgers = [sound, spare_table, spare_roll, unused_node];
    let mut lines = ledgers.each_ref().map(|ledger| {
        let tape = [planting(ledger), entry(b'M', &[])].concat();
        let line = play(&tape).pop().expect("a line");
        assert_eq!(line, memory_line(ledger));
        line
    });
    lines.sort();
    assert!(lines.windows(2).all(|pair| pair[0] != pair[1]));
}

#[test]
fn before_the_first_ledger_the_memory_has_only_nodes_of_zero_bytes() {
    let nothing = hex(&sha256(&[]));
    let nodes = hex(&sha256(&[0; 960]));
    let expected = [format!("memory {nothing} {nothing} {nodes}")];
    assert_eq!(play(&entry(b'M', &[])), expected);
}

#[test]
fn of_the_longest_buffers_2048_and_1024_rows_are_shown() {
    let mut ledger = Ledger::zeroed(vec![0; MAX_TABLE_BYTES], vec![0; MAX_ROLL_BYTES]);
    (ledger.spent, ledger.anchors) = (70_000, 5_000);
    let lines = play(&[keeping(&ledger), entry(b'R', &[])].concat());
    let count = |word: &str| lines.iter().filter(|line| line.starts_with(word)).count();
    assert_eq!(count("spent "), 2_048);
    assert_eq!(count("anchor "), 1_024);
}

#[test]
fn lengths_up_to_the_limits_are_taken() {
    assert_eq!((MAX_TABLE_BYTES, MAX_ROLL_BYTES), (2_097_247, 131_167));
    assert_eq!(play(&opening(2_097_247, 131_167)), ["open 0 0"]);
    assert_eq!(play(&entry(b'C', &[0; MAX_BODY_BYTES])), ["case 1 0"]);
    let longest = Ledger::zeroed(vec![0; MAX_TABLE_BYTES], vec![0; MAX_ROLL_BYTES]);
    assert_eq!(play(&keeping(&longest)), ["plant 0 0"]);
}

fn keeping(ledger: &Ledger) -> Vec<u8> {
    entry(b'K', &keep_body(ledger))
}

#[test]
fn a_keep_plants_all_but_the_bytes_of_the_buffers() {
    let mut sound = Shift::busy(8).ledger;
    sound.pool = 7;
    let body = keep_body(&sound);
    assert_eq!(body.len(), 996);
    assert_eq!(body, plant_body(&sound)[..996]);
    let mut player = Player::new();
    let lines = player.play(b'K', &body).expect("a sound body");
    assert_eq!(lines, ["plant 0 0"]);
    let kept = player.ledger;
    assert_eq!(kept.table, vec![0; sound.table.len()]);
    assert_eq!(kept.roll, vec![0; sound.roll.len()]);
    assert_eq!((kept.spent, kept.anchors, kept.pool), (14, 4, 7));
    assert_eq!(kept.tree.record(), sound.tree.record());
    assert_eq!(kept.tree.leaves(), None);
}

/// A fill of so many rows from that one on, with a number that wraps.
fn wrapping_fill(first: u32, rows: u32) -> Fill {
    Fill {
        first,
        rows,
        start: u64::MAX - 1,
        step: 0x0102_0304_0506_0708,
        tail: std::array::from_fn(|byte| byte as u8 + 100),
    }
}

#[test]
fn a_fill_s_body_lies_as_agreed() {
    let body = wrapping_fill(3, 70_000).body();
    assert_eq!(body.len(), 48);
    assert_eq!(body[..4], [3, 0, 0, 0]);
    assert_eq!(body[4..8], [0x70, 0x11, 1, 0]);
    assert_eq!(body[8..16], [254, 255, 255, 255, 255, 255, 255, 255]);
    assert_eq!(body[16..24], [8, 7, 6, 5, 4, 3, 2, 1]);
    assert_eq!(body[24..], Vec::from_iter(100..124));
    assert_eq!(Fill::read(&body), Some(wrapping_fill(3, 70_000)));
}

#[test]
fn filled_rows_begin_with_a_number_that_steps_and_wraps_highest_byte_first() {
    let fill = wrapping_fill(0, 4);
    let begins: [[u8; 8]; 4] = [
        [255, 255, 255, 255, 255, 255, 255, 254],
        [1, 2, 3, 4, 5, 6, 7, 6],
        [2, 4, 6, 8, 10, 12, 14, 14],
        [3, 6, 9, 12, 15, 18, 21, 22],
    ];
    for (before, begin) in begins.into_iter().enumerate() {
        let row = fill.row(before as u64);
        assert_eq!(row[..8], begin);
        assert_eq!(row[8..], Vec::from_iter(100..124));
    }
}

/// A ledger of ones, with a table of five rows and a roll of three, and 31 bytes
/// more of each.
fn ones() -> Ledger {
    let mut ledger = Ledger::zeroed(vec![1; 5 * ROW_BYTES + 31], vec![1; 3 * ROW_BYTES + 31]);
    (ledger.spent, ledger.anchors, ledger.pool) = (1, 1, 1);
    ledger
}

#[test]
fn a_fill_writes_its_rows_and_nothing_else() {
    let fill = wrapping_fill(1, 2);
    let rows = [fill.row(0), fill.row(1)].concat();
    for kind in [b'T', b'A'] {
        let mut expected = read_plant(&plant_body(&ones())).expect("a sound body");
        let mut player = Player::new();
        player.ledger = expected.clone();
        let lines = player.play(kind, &fill.body()).expect("a sound fill");
        assert_eq!(lines, ["fill 0 0"]);
        let buffer = match kind {
            b'T' => &mut expected.table,
            _ => &mut expected.roll,
        };
        buffer[ROW_BYTES..3 * ROW_BYTES].copy_from_slice(&rows);
        assert_eq!(player.ledger, expected);
    }
}

#[test]
fn a_fill_takes_the_last_whole_row_and_no_later_one() {
    for (kind, whole) in [(b'T', 5), (b'A', 3)] {
        let mut player = Player::new();
        player.ledger = ones();
        let mut is_taken = |first: u32, rows: u32| {
            let before = player.ledger.clone();
            let body = wrapping_fill(first, rows).body();
            let is_taken = player.play(kind, &body).is_some();
            assert!(is_taken && rows > 0 || player.ledger == before);
            is_taken
        };
        for (first, rows) in [(0, whole), (whole - 1, 1), (0, 0), (whole, 0)] {
            assert!(is_taken(first, rows), "{rows} rows from {first}");
        }
        for (first, rows) in [
            (0, whole + 1),
            (whole, 1),
            (whole + 1, 0),
            (u32::MAX, 1),
            (1, u32::MAX),
            (1 << 27, 0),
            (1 << 27, 1),
            (0, 1 << 27),
            (1 << 31, 1 << 31),
        ] {
            assert!(!is_taken(first, rows), "{rows} rows from {first}");
        }
    }
}

#[test]
fn before_the_first_ledger_there_is_no_row_to_fill() {
    for kind in [b'T', b'A'] {
        let none = entry(kind, &wrapping_fill(0, 0).body());
        assert_eq!(play(&none), ["fill 0 0"]);
        let one = entry(kind, &wrapping_fill(0, 1).body());
        assert_eq!(play(&one), BROKEN);
    }
}

#[test]
fn a_name_is_a_line_of_its_own() {
    assert_eq!(play(&entry(b'N', b"a-name")), ["run a-name"]);
    let longest = "-".repeat(100);
    assert_eq!(
        play(&entry(b'N', longest.as_bytes())),
        [format!("run {longest}")]
    );
}

#[test]
fn broken_entries_end_the_run() {
    let plant = plant_body(&Ledger::zeroed(vec![0; 10], vec![0; 10]));
    let broken = [
        entry(b'X', &[]),
        entry(b'o', &[]),
        entry(0, &[]),
        entry(b'F', &[0]),
        entry(b'B', &[0]),
        entry(b'L', &[0]),
        entry(b'R', &[0]),
        entry(b'M', &[0]),
        entry(b'O', &[]),
        entry(b'O', &[0; 7]),
        entry(b'O', &[0; 9]),
        opening(2_097_248, 32),
        opening(32, 131_168),
        entry(b'N', &[b'-'; 101]),
        entry(b'S', &[0; 40]),
        entry(b'S', &[0; 42]),
        entry(b'P', &[]),
        entry(b'P', &plant[..995]),
        entry(b'P', &plant[..plant.len() - 1]),
        entry(b'P', &[&plant[..], &[0]].concat()),
        entry(b'C', &[0; MAX_BODY_BYTES + 1]),
    ];
    assert_broken(&broken);
}

/// Each of these is broken, and so nothing behind it is played.
fn assert_broken(entries: &[Vec<u8>]) {
    for bytes in entries {
        assert_eq!(play(bytes), BROKEN);
        let followed = [&bytes[..], &entry(b'L', &[])].concat();
        assert_eq!(play(&followed), BROKEN);
    }
}

#[test]
fn broken_keeps_and_fills_end_the_run() {
    let keep = keep_body(&Ledger::zeroed(vec![0; 10], vec![0; 10]));
    assert_broken(&[
        entry(b'K', &[]),
        entry(b'K', &keep[..995]),
        entry(b'K', &[&keep[..], &[0]].concat()),
        keeping(&Ledger::zeroed(vec![0; MAX_TABLE_BYTES + 1], Vec::new())),
        keeping(&Ledger::zeroed(Vec::new(), vec![0; MAX_ROLL_BYTES + 1])),
        entry(b'T', &[]),
        entry(b'T', &[0; 47]),
        entry(b'T', &[0; 49]),
        entry(b'A', &[]),
        entry(b'A', &[0; 47]),
        entry(b'A', &[0; 49]),
    ]);
}

#[test]
fn a_tape_that_ends_inside_an_entry_is_broken() {
    let whole = [opening(64, 32), entry(b'C', &[0; 20])].concat();
    let first = opening(64, 32).len();
    assert_eq!(play(&whole), ["open 0 0", "case 1 0"]);
    for length in 1..first {
        assert_eq!(play(&whole[..length]), BROKEN);
    }
    for length in first + 1..whole.len() {
        assert_eq!(play(&whole[..length]), ["open 0 0", "tape 50 0"]);
    }
}
