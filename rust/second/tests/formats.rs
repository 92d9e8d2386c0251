//! docs/FORMATS.md is true: case files, seals, bags and tree records that are
//! put together by its drawings alone are those that this judge writes, and are
//! accepted. Names say what goes into a field; where it goes and how long it
//! is comes from the paper.

mod common;

use std::fs;
use std::path::Path;

use common::Shift;
use second::answer::Answer;
use second::bag::{judge_bag, write_bag, MAX_BAG_BYTES};
use second::case::{Amount, Case, Edition, NewNote, OldNote, Position};
use second::judge::judge;
use second::ledger::{Ledger, MAX_ANCHORS, MAX_POOL, MAX_SPENT, ROW_BYTES};
use second::random::Random;
use second::seal::{Gate, Seal};
use second::tape::plant_body;
use second::tree::{empty_root, Record, DEPTH};
use second::wallet::{idle_note, in_edition, write_case, Plan};

/// One line of a drawing. An offset or a length that is no plain number stays
/// as it is written.
#[derive(Debug)]
struct Line {
    offset: String,
    name: String,
    length: String,
    note: String,
}

impl Line {
    /// Offsets stand in the first five columns; what follows is kept apart by
    /// two spaces or more.
    fn read(text: &str) -> Line {
        let (offset, rest) = text.split_at(text.len().min(5));
        let mut parts = rest
            .split("  ")
            .map(str::trim)
            .filter(|part| !part.is_empty());
        let name = parts.next().unwrap_or_default();
        let mut parts = parts.peekable();
        let length = parts.next_if(|part| count_and_width(part).is_some());
        Line {
            offset: offset.trim().to_owned(),
            name: name.to_owned(),
            length: length.unwrap_or_default().to_owned(),
            note: parts.collect::<Vec<_>>().join(" "),
        }
    }

    fn offset(&self) -> usize {
        self.offset.parse().expect("an offset")
    }

    fn length(&self) -> usize {
        let (count, width) = count_and_width(&self.length).expect("a length");
        count * width
    }
}

/// A length, as `8` or as `29 x 32`.
fn count_and_width(text: &str) -> Option<(usize, usize)> {
    let (count, width) = text.split_once(" x ").unwrap_or(("1", text));
    Some((count.parse().ok()?, width.parse().ok()?))
}

fn paper() -> String {
    let path = Path::new(env!("CARGO_MANIFEST_DIR")).join("../../docs/FORMATS.md");
    fs::read_to_string(path).expect("the paper")
}

/// The paper's drawings, in its order.
fn drawings() -> [Vec<Line>; 12] {
    let paper = paper();
    let fenced = paper.split("```\n").skip(1).step_by(2);
    let drawings: Vec<_> = fenced
        .map(|drawing| drawing.lines().map(Line::read).collect())
        .collect();
    drawings.try_into().expect("twelve drawings")
}

/// What each part's own drawing says.
struct Formats {
    first_case: Vec<Line>,
    second_case: Vec<Line>,
    old_note: Vec<Line>,
    new_note: Vec<Line>,
    bag: Vec<Line>,
    row: Vec<Line>,
    seal: Vec<Line>,
    record: Vec<Line>,
    ledger: Vec<Line>,
    report: Vec<Line>,
    tally: Vec<Line>,
    day_row: Vec<Line>,
}

impl Formats {
    fn read() -> Formats {
        let mut drawings = drawings().into_iter();
        let mut next = || drawings.next().expect("a drawing");
        Formats {
            first_case: next(),
            second_case: next(),
            old_note: next(),
            new_note: next(),
            bag: next(),
            row: next(),
            seal: next(),
            record: next(),
            ledger: next(),
            report: next(),
            tally: next(),
            day_row: next(),
        }
    }

    /// All but the bag's, whose length is not fixed.
    fn fixed(&self) -> [&[Line]; 11] {
        [
            &self.first_case,
            &self.second_case,
            &self.old_note,
            &self.new_note,
            &self.row,
            &self.seal,
            &self.record,
            &self.ledger,
            &self.report,
            &self.tally,
            &self.day_row,
        ]
    }

    /// The drawing of a case file of this edition.
    fn case(&self, edition: Edition) -> &[Line] {
        match edition {
            Edition::First => &self.first_case,
            Edition::Second => &self.second_case,
        }
    }

    fn case_file(&self, case: &Case) -> Vec<u8> {
        filled(self.case(case.edition()), |name| {
            self.case_field(case, name)
        })
    }

    fn case_field(&self, case: &Case, name: &str) -> Vec<u8> {
        match name {
            "vpub_old" => case.vpub_old.0.to_le_bytes().into(),
            "vpub_new" => case.vpub_new.0.to_le_bytes().into(),
            "anchor" => case.anchor.into(),
            "nullifier 1" => case.nullifiers[0].into(),
            "nullifier 2" => case.nullifiers[1].into(),
            "commitment 1" => case.commitments[0].into(),
            "commitment 2" => case.commitments[1].into(),
            "ephemeral key" => case.ephemeral_key.into(),
            "seed" => case.seed.into(),
            "tag 1" => case.tags[0].into(),
            "tag 2" => case.tags[1].into(),
            "proof" => case.proof.bytes().into(),
            "ciphertext 1" => case.ciphertexts[0].into(),
            "ciphertext 2" => case.ciphertexts[1].into(),
            "transaction key" => case.transaction_key.into(),
            "old note 1" => filled(&self.old_note, |name| old_field(&case.old[0], name)),
            "old note 2" => filled(&self.old_note, |name| old_field(&case.old[1], name)),
            "new note 1" => filled(&self.new_note, |name| new_field(&case.new[0], name)),
            "new note 2" => filled(&self.new_note, |name| new_field(&case.new[1], name)),
            "phi" => case.phi.into(),
            _ => panic!("a case has no {name}"),
        }
    }

    fn seal_body(&self, gate: &str, [low, high, raw]: [f64; 3]) -> Vec<u8> {
        filled(&self.seal, |name| match name {
            "gate kind" => vec![self.gate_kind(gate)],
            "low" => low.to_le_bytes().into(),
            "high" => high.to_le_bytes().into(),
            "raw" => raw.to_le_bytes().into(),
            _ => panic!("a seal has no {name}"),
        })
    }

    /// The number that the note beside the gate kind gives to a gate.
    fn gate_kind(&self, gate: &str) -> u8 {
        let kinds = line(&self.seal, "gate kind").note.split(", ");
        let mut pairs = kinds.filter_map(|kind| kind.split_once(' '));
        let found = pairs.find(|(_, name)| *name == gate);
        found.expect("a gate").0.parse().expect("a number")
    }

    fn record_bytes(&self, record: &Record) -> Vec<u8> {
        filled(&self.record, |name| match name {
            "leaves" => record.count.to_le_bytes().into(),
            "nodes" => record.nodes.concat(),
            _ => panic!("a record has no {name}"),
        })
    }

    fn ledger_bytes(&self, ledger: &Ledger) -> Vec<u8> {
        let record = ledger.tree.record();
        filled(&self.ledger, |name| match name {
            "nullifiers" => ledger.spent.to_le_bytes().into(),
            "anchors" => ledger.anchors.to_le_bytes().into(),
            "pool" => ledger.pool.to_le_bytes().into(),
            "leaves" => record.count.to_le_bytes().into(),
            "nodes" => record.nodes.concat(),
            _ => panic!("a ledger has no {name}"),
        })
    }

    /// A bag with these bodies, the seal's first. Rows past the second are
    /// drawn by dots: each lies as far on as the second does from the first.
    fn bag(&self, bodies: &[Vec<u8>]) -> Vec<u8> {
        let [first, second] = ["row 1", "row 2"].map(|name| line(&self.bag, name));
        let step = second.offset() - first.offset();
        let mut bag = vec![0; self.table_length(bodies.len())];
        let count = line(&self.bag, "n");
        place(&mut bag, count, &(bodies.len() as u16).to_le_bytes());
        for (index, body) in bodies.iter().enumerate() {
            let drawn = if index == 0 { first } else { second };
            let row = self.row_bytes(kind_of(drawn), bag.len(), body.len());
            assert_eq!(row.len(), drawn.length());
            let start = first.offset() + index * step;
            bag[start..start + row.len()].copy_from_slice(&row);
            bag.extend(body);
        }
        bag
    }

    fn row_bytes(&self, kind: u8, offset: usize, length: usize) -> Vec<u8> {
        filled(&self.row, |name| match name {
            "kind" => vec![kind],
            "offset" => (offset as u32).to_le_bytes().into(),
            "length" => (length as u32).to_le_bytes().into(),
            _ => panic!("a row has no {name}"),
        })
    }

    /// Where the first body of a bag with so many rows starts: `2+9n`.
    fn table_length(&self, rows: usize) -> usize {
        let start = &line(&self.bag, "body of row 1").offset;
        let (before, each) = start.split_once('+').expect("a sum");
        let each = each.strip_suffix('n').expect("so much for each row");
        let [before, each] = [before, each].map(|n| n.parse::<usize>().expect("a number"));
        before + each * rows
    }

    /// The least and the most rows that a bag may have: `1 to 8`.
    fn row_counts(&self) -> [usize; 2] {
        let (least, most) = line(&self.bag, "n")
            .note
            .split_once(" to ")
            .expect("two ends");
        [least, most].map(|n| n.parse().expect("a number"))
    }
}

fn old_field(note: &OldNote, name: &str) -> Vec<u8> {
    match name {
        "a_sk" => note.a_sk.into(),
        "a_pk" => note.a_pk.into(),
        "value" => note.value.0.to_le_bytes().into(),
        "rho" => note.rho.into(),
        "r" => note.r.into(),
        "position" => note.position.0.to_le_bytes().into(),
        "path" => note.path.concat(),
        _ => panic!("an old note has no {name}"),
    }
}

fn new_field(note: &NewNote, name: &str) -> Vec<u8> {
    match name {
        "a_pk" => note.a_pk.into(),
        "value" => note.value.0.to_le_bytes().into(),
        "rho" => note.rho.into(),
        "r" => note.r.into(),
        _ => panic!("a new note has no {name}"),
    }
}

/// The line of this name.
fn line<'a>(drawing: &'a [Line], name: &str) -> &'a Line {
    let mut found = drawing.iter().filter(|line| line.name == name);
    let line = found.next().unwrap_or_else(|| panic!("no {name} drawn"));
    assert!(found.next().is_none(), "{name} is drawn twice");
    line
}

/// A row's kind, from its note: `kind 1: the seal`.
fn kind_of(row: &Line) -> u8 {
    let (kind, _) = row.note.split_once(':').expect("a kind and its name");
    let number = kind.strip_prefix("kind ").expect("a kind");
    number.parse().expect("a number")
}

/// The fields of a drawing, and its end.
fn fields_and_end(drawing: &[Line]) -> (&[Line], usize) {
    let (end, fields) = drawing.split_last().expect("an end");
    assert_eq!(end.name, "end");
    (fields, end.offset())
}

fn place(bytes: &mut [u8], field: &Line, value: &[u8]) {
    assert_eq!(value.len(), field.length(), "{}", field.name);
    bytes[field.offset()..][..field.length()].copy_from_slice(value);
}

/// What a drawing gives when each field has its value.
fn filled(drawing: &[Line], value_of: impl Fn(&str) -> Vec<u8>) -> Vec<u8> {
    let (fields, end) = fields_and_end(drawing);
    let mut bytes = vec![0; end];
    for field in fields {
        place(&mut bytes, field, &value_of(&field.name));
    }
    bytes
}

/// A number as the paper writes it, its thousands kept apart.
fn written(number: usize) -> String {
    match number {
        0..1_000 => number.to_string(),
        _ => format!("{},{:03}", written(number / 1_000), number % 1_000),
    }
}

/// A case of this edition that a fresh ledger accepts: 10,000 go in.
fn fresh_case(edition: Edition) -> Case {
    let mut random = Random::new(11);
    let plan = Plan {
        vpub_old: Amount(10_000),
        vpub_new: Amount::ZERO,
        anchor: empty_root(DEPTH),
        old: [idle_note(&mut random), idle_note(&mut random)],
        new: [(random.bytes(), Amount(9_999)), (random.bytes(), Amount(1))],
    };
    let case = write_case(&mut random, plan);
    in_edition(&mut random, &case, edition)
}

#[test]
fn offsets_and_lengths_add_up_to_the_end() {
    let formats = Formats::read();
    for drawing in formats.fixed() {
        let (fields, end) = fields_and_end(drawing);
        let mut next = 0;
        for field in fields {
            assert_eq!(field.offset(), next, "{}", field.name);
            next += field.length();
        }
        assert_eq!(end, next);
    }
    let [n, first, second] = ["n", "row 1", "row 2"].map(|name| line(&formats.bag, name));
    assert_eq!(n.offset(), 0);
    assert_eq!(first.offset(), n.length());
    assert_eq!(second.offset(), first.offset() + first.length());
    assert_eq!(second.length(), first.length());
    for rows in 0..10 {
        assert_eq!(
            formats.table_length(rows),
            n.length() + rows * first.length()
        );
    }
    // Bodies come in the order of their rows, so the next is the second's.
    let names: Vec<_> = formats.bag.iter().map(|line| &line.name[..]).collect();
    assert!(names.ends_with(&["body of row 1", "body of row 2", "end"]));
}

#[test]
fn a_drawing_in_a_drawing_has_the_room_that_is_left_for_it() {
    let formats = Formats::read();
    let check = |outer: &[Line], name: &str, inner: &[Line]| {
        let room = line(outer, name).length();
        assert_eq!(room, fields_and_end(inner).1, "{name}");
    };
    for case in [&formats.first_case, &formats.second_case] {
        check(case, "old note 1", &formats.old_note);
        check(case, "old note 2", &formats.old_note);
        check(case, "new note 1", &formats.new_note);
        check(case, "new note 2", &formats.new_note);
    }
    check(&formats.bag, "row 1", &formats.row);
    check(&formats.bag, "row 2", &formats.row);
    let path = &line(&formats.old_note, "path").length;
    assert_eq!(count_and_width(path), Some((DEPTH, ROW_BYTES)));
    let nodes = &line(&formats.record, "nodes").length;
    assert_eq!(count_and_width(nodes), Some((DEPTH + 1, ROW_BYTES)));
}

/// Where a drawing ends, as the paper writes it.
fn written_end(drawing: &[Line]) -> String {
    written(fields_and_end(drawing).1)
}

/// What the paper says of the two editions of a case.
fn sentences_of_editions(first: &[Line], second: &[Line]) -> [String; 4] {
    let [long, short] = [first, second].map(written_end);
    let [longer, shorter] = [first, second].map(|case| line(case, "proof").length());
    let said_of = |edition: &str, case: &[Line]| {
        let description = written(line(case, "transaction key").offset());
        let end = written_end(case);
        format!(
            "The {edition} edition: {end} bytes, \
             of which the description is {description}.\n\n```\n"
        )
    };
    let moved = longer - shorter;
    [
        format!("## The case file: {long} or {short} bytes\n"),
        said_of("first", first),
        said_of("second", second),
        format!("all that stands behind the proof starts {moved} bytes earlier"),
    ]
}

#[test]
fn the_words_around_the_drawings_give_the_same_numbers() {
    let formats = Formats::read();
    let of_editions = sentences_of_editions(&formats.first_case, &formats.second_case);
    let sentences = [
        format!("## The bag: at most {} bytes\n", written(MAX_BAG_BYTES)),
        format!("## The seal: {} bytes\n", written_end(&formats.seal)),
        format!(
            "## The tree record: {} bytes\n",
            written_end(&formats.record)
        ),
        format!("## The ledger as bytes: {}\n", written_end(&formats.ledger)),
        format!("Row {DEPTH} holds the full tree's root."),
        format!("Rows of {ROW_BYTES} bytes"),
        format!("the length divided by {ROW_BYTES}"),
        format!(
            "at most {} and {} rows",
            written(MAX_SPENT),
            written(MAX_ANCHORS)
        ),
    ];
    for sentence in of_editions.iter().chain(&sentences) {
        assert!(paper().contains(sentence), "not in the paper: {sentence}");
    }
}

#[test]
fn a_case_by_the_paper_is_the_one_that_is_written_here() {
    let formats = Formats::read();
    for edition in Edition::ALL {
        let case = fresh_case(edition);
        assert_eq!(formats.case_file(&case), case.to_bytes(), "{edition}");
    }
}

#[test]
fn the_editions_are_drawn_alike_but_for_the_proof_and_what_is_moved_by_it() {
    let formats = Formats::read();
    let (first, second) = (&formats.first_case, &formats.second_case);
    let words = |line: &Line| (line.name.clone(), line.note.clone());
    assert!(first.iter().map(words).eq(second.iter().map(words)));
    let is_proof = |line: &Line| line.name == "proof";
    let proof = first.iter().position(is_proof).expect("a proof");
    for (index, (one, other)) in first.iter().zip(second).enumerate() {
        let moved = if index > proof { 104 } else { 0 };
        assert_eq!(one.offset(), other.offset() + moved, "{}", one.name);
        assert_eq!(one.length == other.length, index != proof, "{}", one.name);
    }
}

#[test]
fn a_case_with_paths_by_the_paper_is_accepted() {
    let formats = Formats::read();
    let mut shift = Shift::busy(17);
    let mut with_value = [0; 2];
    for edition in Edition::ALL.into_iter().cycle().take(40) {
        let case = shift.good_case();
        let case = in_edition(&mut shift.random, &case, edition);
        let file = formats.case_file(&case);
        assert_eq!(file, case.to_bytes());
        let mut ledger = shift.ledger.clone();
        assert_eq!(judge(&mut ledger, &file), Answer::PASSED);
        let valued = case.old.iter().filter(|note| note.value != Amount::ZERO);
        with_value[edition as usize] += valued.count();
    }
    // Where no old note has a value, no path is climbed.
    assert!(with_value.iter().all(|times| *times > 0), "{with_value:?}");
}

#[test]
fn a_case_of_any_other_length_than_those_drawn_is_refused_as_the_paper_says() {
    let formats = Formats::read();
    let rest = paper();
    let (_, behind) = rest
        .split_once("any other length is refusal ")
        .expect("a refusal");
    let (number, _) = behind.split_once('.').expect("the end of a sentence");
    let refused = Answer::new(number.parse().expect("a number"), 0);
    for edition in Edition::ALL {
        let file = formats.case_file(&fresh_case(edition));
        let (mut ledger, _) = Ledger::open(vec![0; 64], vec![0; 32]);
        let longer = [&file[..], &[0]].concat();
        assert_eq!(judge(&mut ledger, &file[..file.len() - 1]), refused);
        assert_eq!(judge(&mut ledger, &longer), refused);
        assert_eq!(judge(&mut ledger, &file), Answer::PASSED);
    }
}

#[test]
fn keys_and_positions_have_the_drawn_bounds() {
    let formats = Formats::read();
    let note = &line(&formats.old_note, "position").note;
    let below = note
        .strip_prefix("below 2^")
        .and_then(|rest| rest.split_once(';'));
    let bits: u32 = below.expect("a power of two").0.parse().expect("a number");
    assert!(note.ends_with("bit k says of level k: 0 a left child, 1 a right one"));
    assert!(Position(0b10).is_right_child(1) && !Position(0b10).is_right_child(0));
    let bound = 1 << bits;
    assert!(Position(bound - 1).is_in_tree());
    assert!(!Position(bound).is_in_tree());
    let key = line(&formats.old_note, "a_sk");
    let (bits, _) = key.note.split_once(" bits").expect("bits");
    assert_eq!(bits.parse::<usize>(), Ok(8 * key.length() - 4));
}

#[test]
fn seals_by_the_paper_are_those_that_are_written_here() {
    let formats = Formats::read();
    for field in ["low", "high", "raw"].map(|name| line(&formats.seal, name)) {
        let form = format!("binary{}", 8 * field.length());
        assert!(field.note.starts_with(&form), "{}", field.name);
    }
    for (name, gate, limits) in [
        ("none", Gate::None, [0.0, 0.0]),
        ("at least", Gate::AtLeast(51.0), [51.0, 0.0]),
        ("between", Gate::Between(40.0, 52.0), [40.0, 52.0]),
    ] {
        let seal = Seal { gate, raw: 51.0 };
        let body = formats.seal_body(name, [limits[0], limits[1], 51.0]);
        assert_eq!(body, seal.to_bytes());
        let expected = ["seal 0 0", "ledger spent 0 leaves 0 pool 0"];
        assert_eq!(judge_bag(&formats.bag(&[body])), expected);
    }
}

#[test]
fn a_bag_by_the_paper_is_the_one_that_is_written_here_and_is_accepted() {
    let formats = Formats::read();
    let seal = formats.seal_body("between", [40.0, 52.0, 51.0]);
    for editions in [
        [Edition::First, Edition::First],
        [Edition::First, Edition::Second],
        [Edition::Second, Edition::First],
        [Edition::Second, Edition::Second],
    ] {
        let [one, again] = editions.map(|edition| formats.case_file(&fresh_case(edition)));
        let bag = formats.bag(&[seal.clone(), one.clone(), again.clone()]);
        assert_eq!(bag, write_bag(&seal, &[&one, &again]));
        let expected = [
            "seal 0 0",
            "case 0 0",
            "case 8 1",
            "ledger spent 2 leaves 2 pool 10000",
        ];
        assert_eq!(judge_bag(&bag), expected, "{editions:?}");
    }
}

#[test]
fn a_bag_has_as_many_rows_as_the_paper_allows() {
    let formats = Formats::read();
    let [least, most] = formats.row_counts();
    let bag_of = |rows: usize| {
        let mut bodies = vec![Vec::new(); rows];
        if let Some(first) = bodies.first_mut() {
            *first = formats.seal_body("none", [0.0, 0.0, 51.0]);
        }
        judge_bag(&formats.bag(&bodies))
    };
    assert!(paper().contains("Any breach is refusal 20."));
    assert_eq!(bag_of(least)[0], "seal 0 0");
    assert_eq!(bag_of(most)[0], "seal 0 0");
    assert_eq!(bag_of(least - 1), ["bag 20 0"]);
    assert_eq!(bag_of(most + 1), ["bag 20 0"]);
}

#[test]
fn a_tree_record_by_the_paper_is_the_one_that_is_written_here() {
    let formats = Formats::read();
    let mut random = Random::new(13);
    let record = Record {
        count: 0x0102_0304,
        nodes: std::array::from_fn(|_| random.bytes()),
    };
    assert_eq!(formats.record_bytes(&record), record.to_bytes());
}

#[test]
fn a_ledger_by_the_paper_is_the_one_that_a_tape_plants() {
    let formats = Formats::read();
    let mut ledger = Shift::busy(14).ledger;
    for pool in [ledger.pool, MAX_POOL, 1 << 63, u64::MAX] {
        ledger.pool = pool;
        let bytes = formats.ledger_bytes(&ledger);
        assert_eq!(bytes, plant_body(&ledger)[..bytes.len()]);
    }
}
