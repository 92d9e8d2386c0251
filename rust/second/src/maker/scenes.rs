//! The scenes that a tape is made of.

use crate::answer::Answer;
use crate::bytes::Bytes32;
use crate::case::{Amount, Case, Edition, OldNote, Position, MAX_MONEY};
use crate::ledger::{is_pool, Ledger, MAX_POOL, ROW_BYTES};
use crate::random::Random;
use crate::tape::{
    draft_body, entry, keep_body, plant_body, Fill, MAX_BODY_BYTES, MAX_DESK_BYTES, MAX_ROLL_BYTES,
    MAX_TABLE_BYTES,
};
use crate::tree::{climb, parent, Record, Tree, DEPTH, FULL};
use crate::wallet::{any_proof, balance, idle_note, set_nullifiers, write_case, Note, Plan};

use super::bends::{bend_named, BENDS};
use super::by_rule::{among, any_rows, depot, depot_of_anchors};
use super::depots::{any_depot, depots, rows_not_shown};
use super::drafts::{bent_draft, desk_runs, misfit_draft};
use super::editions::edition_runs;
use super::misses::near_misses;
use super::pools::pool_runs;
use super::purse::Purse;
use super::rows::spent_rows;
use super::seals::KINDS;
use super::searches::searches;
use super::tampers::{fill_spare_bytes, fill_unused_nodes, TAMPERS};
use super::{Made, Maker, WRONG_LENGTHS};

/// What is done on a tape.
type Act = fn(&mut Maker);

/// A scene's name, and what it does.
type Scene = (&'static str, Act);

/// Every tape that is long enough has each of these, in a random order.
const FIRST: [Scene; 13] = [
    ("one-of-each", one_of_each),
    ("bench", bench),
    ("narrow-rooms", narrow_rooms),
    ("damage", damage),
    ("damage", damage),
    ("spare-rows", spare_rows),
    ("rows-beside", rows_beside),
    ("anywhere", anywhere),
    ("wrong-lengths", wrong_lengths),
    ("big-table-with-room", big_table_with_room),
    ("full-roll", full_roll),
    ("deep-records", deep_records),
    ("order", order),
];

/// What follows is chosen from these.
const LATER: [Scene; 14] = [
    ("day", day),
    ("day", day),
    ("day", day),
    ("narrow-rooms", narrow_rooms),
    ("damage", damage),
    ("spare-rows", spare_rows),
    ("rows-beside", rows_beside),
    ("elsewhere", elsewhere),
    ("anywhere", anywhere),
    ("order", order),
    ("order", order),
    ("deep-records", deep_records),
    ("drafts", drafts),
    ("something-long", something_long),
];

/// Values of the notes of a ledger from elsewhere. Two of them are spent at
/// most; so two of the greatest are left, whose sum has more than 64 bits.
const ODD_VALUES: [Amount; 10] = [
    Amount(u64::MAX),
    Amount(u64::MAX),
    Amount(u64::MAX),
    Amount(u64::MAX),
    Amount(1 << 63),
    Amount(MAX_MONEY.0 + 1),
    Amount(7_000),
    Amount(3_000),
    Amount(1),
    Amount(0),
];

/// Rows of a long table that still fits into one entry.
pub(super) const LONG_TABLE: usize = 2_048;

/// Rows of a long roll that still fits into one entry.
const LONG_ROLL: usize = 1_024;

/// A tape of so many entries has room for a few long ones beside them.
const LONG_TAPE: usize = 600;

/// How many due bends and pairs one scene works off.
const DUE_AT_ONCE: usize = 150;

/// How many tampers one scene has.
const TAMPERS_AT_ONCE: usize = TAMPERS.len().div_ceil(2);

impl Maker {
    /// Plays the first scenes, works off what is still due, so that every
    /// bend in both editions and every pair of neighbours is on the tape, and goes
    /// on with random scenes until there are enough entries. On a long tape nothing
    /// is left due, though there be a few entries more than were asked for.
    pub(super) fn play_scenes(&mut self) {
        if self.random.one_in(2) {
            self.name("before-the-first-ledger");
            before_the_first_ledger(self);
        }
        let mut first = FIRST;
        self.random.shuffle(&mut first);
        for scene in first {
            self.play_scene(scene);
        }
        self.is_beside = self.wanted >= LONG_TAPE;
        let benches: [Scene; 2] = [("bench", bench), ("bench-elsewhere", bench_elsewhere)];
        for scene in benches.into_iter().cycle() {
            if self.is_done() || self.is_nothing_due() {
                break;
            }
            self.play_scene(scene);
        }
        self.is_beside = false;
        while !self.is_done() {
            let scene = *self.random.pick(&LATER);
            self.play_scene(scene);
        }
        if self.wanted >= LONG_TAPE {
            self.is_beside = true;
            self.name("big-table-without-room");
            big_table_without_room(self);
            near_misses(self);
            spent_rows(self);
            pool_runs(self);
            edition_runs(self);
            desk_runs(self);
            if self.wanted > LONG_TAPE {
                searches(self);
                rows_not_shown(self);
            }
            depots(self);
        }
    }

    /// A ledger that is grown in this way, with spare bytes that are not zero, and
    /// the purse that fits it. A tape that is kept short grows it once.
    fn grown(&mut self, name: &'static str, grow: Act) -> Ledger {
        let before = self.grown.remove(name).filter(|_| self.wanted <= LONG_TAPE);
        let (mut ledger, purse) = before.unwrap_or_else(|| {
            grow(self);
            (self.player.ledger.clone(), self.purse.clone())
        });
        self.purse = purse.clone();
        self.grown.insert(name, (ledger.clone(), purse));
        fill_spare_bytes(&mut self.random, &mut ledger);
        ledger
    }

    fn is_nothing_due(&self) -> bool {
        self.bends_due.is_empty() && self.pairs_due.is_empty()
    }

    /// Plays a scene and a few seals, if there are not enough entries yet.
    fn play_scene(&mut self, (name, scene): Scene) {
        if !self.is_done() {
            self.name(name);
            scene(self);
            self.name("seals");
            seals(self);
        }
    }
}

/// A length of this many rows and perhaps some bytes of another.
fn length_of(random: &mut Random, rows: usize) -> usize {
    let odd_bytes = if random.one_in(3) {
        0
    } else {
        random.below(ROW_BYTES)
    };
    rows * ROW_BYTES + odd_bytes
}

/// A length of this many rows and some bytes of another, for planted buffers:
/// those bytes belong to no row, and have to stay.
pub(super) fn ragged_length(random: &mut Random, rows: usize) -> usize {
    rows * ROW_BYTES + 1 + random.below(ROW_BYTES - 1)
}

/// Two seals until each kind was on the tape, then as the dice say.
fn seals(maker: &mut Maker) {
    let is_seal = |made: &&Made| made.bytes[0] == b'S';
    let so_far = maker.made.iter().filter(is_seal).count();
    let more = if so_far < KINDS.len() {
        2
    } else {
        maker.random.below(3)
    };
    for _ in 0..more {
        maker.seal();
    }
}

/// The player starts with an all-zero ledger without buffers.
fn before_the_first_ledger(maker: &mut Maker) {
    maker.look_at_ledger();
    maker.look_at_rows();
    maker.good_case();
    maker.wrong_length();
    maker.close_block();
    maker.look_at_ledger();
    maker.look_at_memory("memory before the first ledger");
}

/// An ordinary day: cases good and bent, blocks closed, looks taken.
fn day(maker: &mut Maker) {
    open_for_a_day(maker);
    let steps = 20 + maker.random.below(25);
    for _ in 0..steps {
        step(maker);
    }
    maker.look_at_ledger();
    maker.look_at_rows();
}

/// A day of one step of each kind.
fn one_of_each(maker: &mut Maker) {
    let mut steps: [Act; 8] = [
        Maker::careless_case,
        Maker::pair_case,
        Maker::mended_case,
        Maker::replayed_case,
        Maker::close_block,
        Maker::bent_case,
        Maker::good_case,
        replant,
    ];
    maker.random.shuffle(&mut steps);
    let table = length_of(&mut maker.random, 20);
    let roll = length_of(&mut maker.random, 5);
    maker.open(table, roll);
    maker.good_case();
    maker.look_at_memory("memory after an acceptance");
    maker.wrong_length();
    maker.look_at_memory("memory after a refusal");
    for step in steps {
        step(maker);
    }
    maker.look_at_ledger();
}

fn open_for_a_day(maker: &mut Maker) {
    let (table_rows, roll_rows) = match maker.random.below(16) {
        0 => return maker.open(MAX_TABLE_BYTES, MAX_ROLL_BYTES),
        1..=3 => (LONG_TABLE, LONG_ROLL),
        _ => (8 + maker.random.below(30), 3 + maker.random.below(8)),
    };
    let table = length_of(&mut maker.random, table_rows);
    let roll = length_of(&mut maker.random, roll_rows);
    maker.open(table, roll);
}

fn step(maker: &mut Maker) {
    match maker.random.below(100) {
        0..=18 => maker.good_case(),
        19..=24 => maker.careless_case(),
        25..=54 => maker.bent_case(),
        55..=64 => maker.pair_case(),
        65..=68 => maker.mended_case(),
        69..=71 => maker.replayed_case(),
        72..=74 => maker.wrong_length(),
        75..=86 => maker.close_block(),
        87..=90 => maker.look_at_ledger(),
        91..=92 => maker.look_at_rows(),
        93..=96 => maker.seal(),
        _ => replant(maker),
    }
}

/// A day for the bends that are due.
fn bench(maker: &mut Maker) {
    let ledger = maker.grown("bench", grow_bench);
    if maker.player.ledger.tree != ledger.tree {
        maker.plant(&ledger, "a bench's ledger");
    }
    let left = due_cases(maker, DUE_AT_ONCE);
    // Once the block is closed, the notes of the cases so far can be spent.
    if left > 0 && !maker.is_nothing_due() {
        maker.close_block();
        due_cases(maker, left);
    }
    maker.look_at_ledger();
}

/// A ledger of a few cases and blocks and an open one, with room for many more.
fn grow_bench(maker: &mut Maker) {
    let table = length_of(&mut maker.random, 60);
    let roll = length_of(&mut maker.random, 10);
    maker.open(table, roll);
    for cases in [2, 2, 1] {
        for _ in 0..cases {
            maker.good_case();
        }
        maker.close_block();
    }
    maker.good_case();
}

/// Works off what is due and can be made here, at most so much, and gives back
/// how much more it might have been.
fn due_cases(maker: &mut Maker, most: usize) -> usize {
    let made = (0..most).take_while(|_| maker.due_case()).count();
    most - made
}

/// Plants the ledger as it is, with random bytes in every unused part.
fn replant(maker: &mut Maker) {
    let lent = maker.player.ledger.table.len();
    if maker.is_long() || lent > 100 * ROW_BYTES && !maker.take_long() {
        return;
    }
    let mut ledger = maker.player.ledger.clone();
    fill_unused_nodes(&mut maker.random, &mut ledger);
    fill_spare_bytes(&mut maker.random, &mut ledger);
    maker.plant(&ledger, "own ledger, unused parts filled");
}

/// Tables and rolls with hardly a row, or none.
fn narrow_rooms(maker: &mut Maker) {
    let none_or_four = *maker.random.pick(&[0, 4]);
    let none_or_one = *maker.random.pick(&[0, 1]);
    for (table_rows, roll_rows) in [(none_or_four, 0), (none_or_one, 1), (2, 1), (5, 2)] {
        let table = length_of(&mut maker.random, table_rows);
        let roll = length_of(&mut maker.random, roll_rows);
        maker.open(table, roll);
        for _ in 0..1 + table_rows / 2 {
            maker.good_case();
        }
        maker.close_block();
        maker.close_block();
        maker.case_bent_by(bend_named("both public values, balanced"));
        maker.look_at_ledger();
        if maker.random.one_in(2) {
            maker.look_at_memory("memory of narrow rooms");
        }
    }
}

/// A ledger of a few cases and blocks, with room for more, for planting.
fn small_ledger(maker: &mut Maker) -> Ledger {
    maker.grown("small", grow_small_ledger)
}

fn grow_small_ledger(maker: &mut Maker) {
    let table = ragged_length(&mut maker.random, 12);
    let roll = ragged_length(&mut maker.random, 6);
    maker.open(table, roll);
    maker.good_case();
    maker.good_case();
    maker.close_block();
    maker.good_case();
    maker.close_block();
}

/// Some of the tampers on a small ledger; two such scenes have them all.
fn damage(maker: &mut Maker) {
    let sound = small_ledger(maker);
    let purse = maker.purse.clone();
    for _ in 0..TAMPERS_AT_ONCE {
        let tamper = maker.next_tamper();
        let mut ledger = sound.clone();
        (tamper.apply)(&mut maker.random, &mut ledger);
        maker.purse = purse.clone();
        maker.purse.stop_growing();
        maker.plant(&ledger, tamper.name);
        let is_damaged = maker.player.ledger.is_damaged();
        assert_eq!(is_damaged, tamper.damages, "{}", tamper.name);
        try_planted(maker);
    }
}

/// A case, and perhaps a block or a look at a planted ledger.
fn try_planted(maker: &mut Maker) {
    let case = maker.purse.good_case(&mut maker.random);
    let is_on_roll = maker.player.ledger.has_anchor(&case.anchor);
    let answer = Answer::new(if is_on_roll { 0 } else { 6 }, 0);
    maker.judge(&case, answer, "good case");
    match maker.random.below(24) {
        0 => maker.look_at_rows(),
        1 => maker.look_at_ledger(),
        2 => maker.wrong_length(),
        3..=5 => maker.close_block(),
        _ => (),
    }
}

/// Rows that only look used: they lie past the counts.
fn spare_rows(maker: &mut Maker) {
    let sound = small_ledger(maker);
    let purse = maker.purse.clone();
    nullifiers_in_spare_rows(maker, sound.clone());
    maker.purse = purse;
    anchor_in_spare_row(maker, sound);
}

fn nullifiers_in_spare_rows(maker: &mut Maker, mut ledger: Ledger) {
    let name = "nullifiers in spare rows";
    let case = maker.purse.good_case(&mut maker.random);
    let spent = ledger.spent as usize;
    write_row(&mut ledger.table, spent, &case.nullifiers[0]);
    write_row(&mut ledger.table, spent + 1, &case.nullifiers[1]);
    maker.plant(&ledger, name);
    maker.judge(&case, Answer::PASSED, name);
    maker.look_at_rows();
    refused_late(maker);
}

/// Refusals that a judge which writes too early has written before: the
/// spare rows would show it when the planted ledger's memory is looked at.
fn refused_late(maker: &mut Maker) {
    maker.case_bent_by(bend_named("spent note in place 2"));
    maker.case_bent_by(bend_named("commitment 2 off in its last byte"));
}

fn anchor_in_spare_row(maker: &mut Maker, mut ledger: Ledger) {
    let name = "anchor in a spare row";
    let mut case = maker.purse.good_case(&mut maker.random);
    case.anchor = maker.random.bytes();
    let anchors = ledger.anchors as usize;
    write_row(&mut ledger.roll, anchors, &case.anchor);
    maker.plant(&ledger, name);
    maker.judge(&case, Answer::new(6, 0), name);
    maker.close_block();
    maker.judge(&case, Answer::new(6, 0), name);
    maker.look_at_rows();
}

/// Rows below and above a case's nullifiers that are off in their first or last
/// byte only: the case passes, and its nullifiers come to stand between them.
fn rows_beside(maker: &mut Maker) {
    let name = "rows beside the nullifiers";
    maker.purse = Purse::from_elsewhere(&mut maker.random, &[Amount(1), Amount(2)]);
    let case = maker.purse.good_case(&mut maker.random);
    let mut rows = Vec::new();
    for nullifier in case.nullifiers {
        for (place, byte) in [(0, 0), (0, 255), (31, 0), (31, 255)] {
            let mut row = nullifier;
            let is_alike = row[place] == byte;
            row[place] = if is_alike { byte ^ 1 } else { byte };
            rows.push(row);
        }
    }
    rows.sort();
    let table = ragged_length(&mut maker.random, 12);
    let ledger = ledger_from_elsewhere(maker, &rows, table, 3);
    maker.plant(&ledger, name);
    maker.judge(&case, Answer::PASSED, name);
    maker.look_at_rows();
}

pub(super) fn write_row(buffer: &mut [u8], row: usize, bytes: &Bytes32) {
    buffer[row * ROW_BYTES..(row + 1) * ROW_BYTES].copy_from_slice(bytes);
}

/// A day on a ledger from elsewhere.
fn elsewhere(maker: &mut Maker) {
    plant_elsewhere(maker, None);
    for _ in 0..6 + maker.random.below(8) {
        step(maker);
    }
    maker.look_at_ledger();
    maker.look_at_rows();
}

/// Drafts of bent cases on a ledger from elsewhere, some of them of wrong lengths.
fn drafts(maker: &mut Maker) {
    plant_elsewhere(maker, None);
    for _ in 0..8 + maker.random.below(12) {
        if maker.random.one_in(6) {
            misfit_draft(maker);
        } else {
            bent_draft(maker);
        }
    }
    maker.look_at_ledger();
}

/// Some due bends need notes of values that no ledger grown here has, and a pool
/// between its bounds. Two of those notes seldom come into one case, so they are
/// tried for longer.
fn bench_elsewhere(maker: &mut Maker) {
    let between = maker.random.between(1, u128::from(MAX_POOL) - 1);
    plant_elsewhere(maker, Some(between as u64));
    for _ in 0..5 {
        due_cases(maker, DUE_AT_ONCE);
    }
    maker.look_at_ledger();
}

/// A ledger that was never grown here: any record, any rows, notes of any
/// value in a tree of their own, this in its pool or any amount.
fn plant_elsewhere(maker: &mut Maker, pool: Option<u64>) {
    maker.purse = Purse::from_elsewhere(&mut maker.random, &ODD_VALUES);
    maker.purse.pool = pool.unwrap_or(maker.purse.pool);
    let mut spent = Vec::new();
    for _ in 0..1 + maker.random.below(2) {
        spent.extend(maker.purse.take_spent(&mut maker.random));
    }
    let cases = 1 + maker.random.below(4);
    let rows = rows_with(&mut maker.random, &spent, 2 * cases);
    let table_rows = 2 * cases + 8 + maker.random.below(20);
    let table = ragged_length(&mut maker.random, table_rows);
    let ledger = ledger_from_elsewhere(maker, &rows, table, 5);
    maker.plant(&ledger, "ledger from elsewhere");
}

/// Two notes of value at any positions at all, one in each half of a tree.
struct Twins {
    anchor: Bytes32,
    old: [OldNote; 2],
}

impl Twins {
    fn random(random: &mut Random) -> Twins {
        let half = FULL / 2;
        let places = [0, half - 1, random.below(half as usize) as u32];
        let mut old = [0, half].map(|start| {
            let position = Position(start + *random.pick(&places));
            let value = Amount(1 + random.below(100_000) as u64);
            let path = std::array::from_fn(|_| random.bytes());
            Note::random(random, value).at(position, path)
        });
        let top = DEPTH - 1;
        let halves =
            [0, 1].map(|i| climb(&old[i].commitment(), old[i].position, &old[i].path[..top]));
        old[0].path[top] = halves[1];
        old[1].path[top] = halves[0];
        Twins {
            anchor: parent(&halves[0], &halves[1]),
            old,
        }
    }

    /// A case that spends one of the two, or both.
    fn case(&self, random: &mut Random) -> Case {
        let mut old = self.old.clone();
        random.shuffle(&mut old);
        if random.one_in(2) {
            old[random.below(2)] = idle_note(random);
        }
        self.case_of(random, old)
    }

    /// A case that spends one of the two, in this place.
    fn case_in_place(&self, random: &mut Random, which: usize) -> Case {
        let mut old = [idle_note(random), idle_note(random)];
        old[which] = self.old[which].clone();
        self.case_of(random, old)
    }

    fn case_of(&self, random: &mut Random, old: [OldNote; 2]) -> Case {
        let plan = Plan {
            vpub_old: Amount::ZERO,
            vpub_new: Amount::ZERO,
            anchor: self.anchor,
            old,
            new: [
                (random.bytes(), Amount::ZERO),
                (random.bytes(), Amount::ZERO),
            ],
        };
        let mut case = write_case(random, plan);
        balance(random, &mut case);
        case
    }
}

/// Notes at positions that no ledger could grow to, the last leaf among
/// them, with random nodes beside them at every level.
fn anywhere(maker: &mut Maker) {
    let twins: [Twins; 2] = std::array::from_fn(|_| Twins::random(&mut maker.random));
    let near_roots = [0, 31].map(|byte| {
        let mut root = twins[0].anchor;
        maker.random.flip_bit_of(&mut root[byte]);
        root
    });
    maker.purse = Purse::from_elsewhere(&mut maker.random, &[Amount(1)]);
    let rows = rows_with(&mut maker.random, &[], 4);
    let table = ragged_length(&mut maker.random, 12);
    let mut ledger = ledger_from_elsewhere(maker, &rows, table, 5);
    let roots = twins.iter().map(|twins| twins.anchor).chain(near_roots);
    for (row, root) in roots.enumerate() {
        write_row(&mut ledger.roll, row, &root);
    }
    maker.plant(&ledger, "notes at any position");
    for root in near_roots {
        spend_by_another_root(maker, &twins[0], root, 0);
        spend_by_another_root(maker, &twins[0], root, 1);
    }
    for twins in &twins {
        spend_twins(maker, twins);
    }
    maker.look_at_ledger();
}

/// A case whose anchor is on the roll but is not where its paths lead.
fn spend_by_another_root(maker: &mut Maker, twins: &Twins, root: Bytes32, which: usize) {
    let mut case = twins.case_in_place(&mut maker.random, which);
    case.anchor = root;
    let answer = Answer::new(10, which as u8 + 1);
    maker.judge(&case, answer, "nearly the paths' root");
}

/// A case of two notes, first with its paths bent.
fn spend_twins(maker: &mut Maker, twins: &Twins) {
    let case = twins.case(&mut maker.random);
    for name in [
        "path 1 one bit off",
        "path 2 one bit off",
        "position 1 one bit off",
    ] {
        let bend = bend_named(name);
        if let Some(bent) = maker.apply(bend, case.clone()) {
            maker.judge_bent(&bent, bend);
        }
    }
    maker.judge(&case, Answer::PASSED, "notes at any position");
}

/// Every wrong length that is worth a name. The longest entry that there may be
/// is for tapes that are long themselves.
fn wrong_lengths(maker: &mut Maker) {
    let long = if maker.wanted > LONG_TAPE {
        MAX_BODY_BYTES
    } else {
        *maker.random.pick(&[65_536, 69_642, 69_746])
    };
    for length in WRONG_LENGTHS.into_iter().chain([long]) {
        maker.case_of_length(length);
    }
    maker.look_at_ledger();
}

/// Rising rows, the given ones among them: sometimes the first, sometimes
/// the last, sometimes beside rows that differ in the last bit only.
fn rows_with(random: &mut Random, given: &[Bytes32], count: usize) -> Vec<Bytes32> {
    let mut rows = given.to_vec();
    let style = random.below(4);
    while rows.len() < count {
        let mut row: Bytes32 = random.bytes();
        match (given.first(), style) {
            (Some(near), 0) => {
                row = *near;
                row[31] ^= 1 + random.below(255) as u8;
            }
            (Some(least), 1) if row < *least => continue,
            (Some(most), 2) if row > *most => continue,
            _ => (),
        }
        if !rows.contains(&row) {
            rows.push(row);
        }
    }
    rows.sort();
    rows
}

/// A sound ledger with these rows, a random record, the purse's pool, and its
/// anchors among random ones on a roll with room for one more.
pub(super) fn ledger_from_elsewhere(
    maker: &mut Maker,
    rows: &[Bytes32],
    table: usize,
    anchors: usize,
) -> Ledger {
    let random = &mut maker.random;
    let mut roll: Vec<Bytes32> = maker.purse.anchors().iter().map(|a| a.root).collect();
    while roll.len() < anchors {
        roll.push(random.bytes());
    }
    random.shuffle(&mut roll);
    let record = Record {
        count: rows.len() as u32,
        nodes: std::array::from_fn(|_| random.bytes()),
    };
    let roll_length = ragged_length(random, anchors + 1);
    let mut ledger = Ledger {
        table: rows.concat(),
        roll: roll.concat(),
        spent: rows.len() as u64,
        anchors: anchors as u64,
        pool: maker.purse.pool,
        tree: Tree::planted(record),
    };
    ledger.table.resize(table, 0);
    ledger.roll.resize(roll_length, 0);
    fill_spare_bytes(random, &mut ledger);
    ledger
}

/// One of the scenes with long buffers, if the tape may have one more.
fn something_long(maker: &mut Maker) {
    let scenes: [Act; 6] = [
        big_table_with_room,
        big_table_without_room,
        full_roll,
        any_depot,
        any_depot,
        any_depot,
    ];
    if maker.take_long() {
        maker.random.pick(&scenes)(maker);
    }
}

/// 2,046 nullifiers on 2,048 rows: there is room for one more case.
fn big_table_with_room(maker: &mut Maker) {
    plant_big_table(maker, LONG_TABLE - 2);
    maker.bent_case();
    maker.good_case();
    maker.look_at_ledger();
    try_big_table(maker);
}

/// 2,048 nullifiers on 2,048 rows: there is no room.
fn big_table_without_room(maker: &mut Maker) {
    plant_big_table(maker, LONG_TABLE);
    try_big_table(maker);
}

fn try_big_table(maker: &mut Maker) {
    maker.good_case();
    maker.bent_case();
    maker.close_block();
    maker.look_at_ledger();
}

fn plant_big_table(maker: &mut Maker, spent: usize) {
    let values = [Amount(u64::MAX), Amount(1), Amount::ZERO, MAX_MONEY];
    maker.purse = Purse::from_elsewhere(&mut maker.random, &values);
    let taken = maker.purse.take_spent(&mut maker.random);
    let table = ragged_length(&mut maker.random, LONG_TABLE);
    let fill = depot(spent, table).plant(maker);
    if let Some(row) = taken {
        maker.fill_table(&among(&fill, spent, &row));
    }
}

/// Rolls of 1,024 rows at and near their end.
fn full_roll(maker: &mut Maker) {
    maker.purse = Purse::from_elsewhere(&mut maker.random, &[Amount(5), Amount(6)]);
    let anchors = LONG_ROLL - maker.random.below(2);
    let roll = ragged_length(&mut maker.random, LONG_ROLL);
    depot_of_anchors(anchors, roll).plant(maker);
    maker.good_case();
    maker.close_block();
    maker.look_at_ledger();
    maker.close_block();
    maker.good_case();
    maker.bent_case();
    maker.look_at_ledger();
}

/// Leaf counts at which a record's root may go wrong.
const DEEP_COUNTS: [u32; 11] = [
    FULL - 1,
    FULL,
    FULL + 1,
    FULL - 2,
    FULL / 2,
    FULL / 2 - 1,
    u32::MAX,
    u32::MAX - 1,
    1 << 31,
    (1 << 30) + 5,
    0x1555_5555,
];

/// Records of very many leaves, which only a look can ask about.
fn deep_records(maker: &mut Maker) {
    let mut counts = DEEP_COUNTS;
    maker.random.shuffle(&mut counts[2..]);
    for count in &counts[..4] {
        let ledger = deep_ledger(&mut maker.random, *count);
        maker.plant(&ledger, &format!("record of {count} leaves"));
        maker.look_at_ledger();
    }
    maker.good_case();
    maker.close_block();
    maker.look_at_ledger();
}

/// A damaged ledger with a record of this many leaves.
fn deep_ledger(random: &mut Random, count: u32) -> Ledger {
    let mut ledger = Ledger::zeroed(vec![0; 100], vec![0; 40]);
    fill_spare_bytes(random, &mut ledger);
    ledger.tree = Tree::planted(Record {
        count,
        nodes: std::array::from_fn(|_| random.bytes()),
    });
    ledger.anchors = 1;
    ledger.spent = *random.pick(&[0, u64::from(count), 2]);
    ledger
}

/// Two cases in one order and then, from the same ledger, in the other: first
/// two that share a nullifier, then two that do not and leave the pool in its
/// bounds. The order leaves number and place as they are; rows may be shifted by
/// the case before.
fn order(maker: &mut Maker) {
    let ledger = small_ledger(maker);
    let purse = maker.purse.clone();
    let pair = sharing_cases(maker);
    for answers in both_orders(maker, &ledger, pair) {
        let is_spent = answers[0].is_pass() && answers[1].number == 8;
        assert!(is_spent, "the second is refused as spent");
    }
    let pair = unrelated_cases(maker);
    let [one_first, other_first] = both_orders(maker, &ledger, pair);
    let [other, one] = other_first.map(Answer::without_row);
    assert_eq!(
        one_first.map(Answer::without_row),
        [one, other],
        "order matters"
    );
    maker.purse = purse;
    maker.purse.stop_growing();
}

/// The answers to both orders, each on this ledger.
fn both_orders(
    maker: &mut Maker,
    ledger: &Ledger,
    (one, other): (Vec<u8>, Vec<u8>),
) -> [[Answer; 2]; 2] {
    [[&one, &other], [&other, &one]].map(|files| {
        maker.plant(ledger, "ledger for two orders");
        let answers = files.map(|file| maker.ask_file(file, "two orders"));
        maker.look_at_ledger();
        answers
    })
}

/// Two files without a common nullifier, good or bent, that leave the pool in
/// its bounds.
fn unrelated_cases(maker: &mut Maker) -> (Vec<u8>, Vec<u8>) {
    loop {
        let one = maker.purse.good_case(&mut maker.random);
        let mut rest = maker.purse.clone();
        one.old.iter().for_each(|note| rest.mark_spent(note));
        let other = rest.good_case(&mut maker.random);
        let one = sometimes_bent(maker, one);
        let other = sometimes_bent(maker, other);
        if leave_the_pool_in_its_bounds(maker.purse.pool, &one, &other) {
            return (one.to_bytes(), other.to_bytes());
        }
    }
}

/// Whether the pool is in its bounds with what either case asks for, and with
/// what both do, be they accepted or not.
fn leave_the_pool_in_its_bounds(pool: u64, one: &Case, other: &Case) -> bool {
    let [one, other] = [one, other].map(Case::asked_of_pool);
    let asked = [one, other, one + other];
    asked.iter().all(|asked| is_pool(i128::from(pool) + asked))
}

fn sometimes_bent(maker: &mut Maker, case: Case) -> Case {
    if maker.random.one_in(2) {
        return case;
    }
    let bend = maker.random.pick(BENDS);
    maker.apply(bend, case.clone()).unwrap_or(case)
}

/// Two files that each pass alone, with one nullifier in common.
fn sharing_cases(maker: &mut Maker) -> (Vec<u8>, Vec<u8>) {
    let one = maker.purse.good_case(&mut maker.random);
    let mut other = one.clone();
    let kept = maker.random.below(2);
    other.old[1 - kept] = idle_note(&mut maker.random);
    if maker.random.one_in(2) {
        other.old.swap(0, 1);
    }
    other.seed = maker.random.bytes();
    other.proof = any_proof(&mut maker.random);
    other.vpub_new = Amount::ZERO;
    set_nullifiers(&mut other);
    balance(&mut maker.random, &mut other);
    (one.to_bytes(), other.to_bytes())
}

/// Bytes that no tape may hold, sometimes with a sound entry after them.
pub(super) fn broken_end(random: &mut Random) -> Vec<u8> {
    if random.one_in(4) {
        return cut_entry(random);
    }
    let mut bytes = broken_entry(random);
    if random.one_in(2) {
        bytes.extend(entry(b'L', &[]));
    }
    bytes
}

/// The tape ends inside an entry.
fn cut_entry(random: &mut Random) -> Vec<u8> {
    let case_bytes = random.pick(&Edition::ALL).case_bytes();
    let whole = entry(b'C', &vec![1; case_bytes]);
    let length = match random.below(3) {
        0 => 1 + random.below(4),
        1 => whole.len() - 1,
        _ => 5 + random.below(case_bytes),
    };
    whole[..length].to_vec()
}

/// An unknown kind, or a length that the kind may not have.
fn broken_entry(random: &mut Random) -> Vec<u8> {
    let ledger = |table: usize, roll: usize| Ledger::zeroed(vec![0; table], vec![0; roll]);
    let plant = plant_body(&ledger(64, 64));
    let keep = keep_body(&ledger(64, 64));
    let one_more = |body: &[u8]| [body, &[0]].concat();
    match random.below(20) {
        0 => entry(*random.pick(b"Xod\0\xff"), &[]),
        1 => entry(*random.pick(b"FBLRM"), &[0]),
        2 => entry(b'O', &opening(64, 64)[..7]),
        3 => entry(b'O', &[0; 9]),
        4 => entry(b'O', &opening(MAX_TABLE_BYTES + 1, 64)),
        5 => entry(b'O', &opening(64, MAX_ROLL_BYTES + 1)),
        6 => entry(b'S', &[0; 41][..*random.pick(&[0, 16, 40])]),
        7 => entry(b'S', &[0; 42]),
        8 => entry(b'P', &plant[..995 + random.below(128)]),
        9 => entry(b'P', &one_more(&plant)),
        10 => entry(b'K', &keep[..keep.len() - 1]),
        11 => entry(b'K', &one_more(&keep)),
        12 => entry(b'K', &keep_body(&ledger(MAX_TABLE_BYTES + 1, 0))),
        13 => entry(b'K', &keep_body(&ledger(0, MAX_ROLL_BYTES + 1))),
        14 => entry(*random.pick(b"TA"), &[0; 48][..*random.pick(&[0, 24, 47])]),
        15 => entry(*random.pick(b"TA"), &[0; 49]),
        16 => entry(*random.pick(b"TA"), &fill_past_all(random).body()),
        17 => entry(b'D', &[0; 3][..random.below(4)]),
        18 => entry(b'D', &draft_body(MAX_DESK_BYTES + 1, &[])),
        _ => entry(b'C', &vec![0; MAX_BODY_BYTES + 1]),
    }
}

/// Rows that no buffer has: one behind the longest, none that come later still,
/// and numbers whose sum or product would wrap at 32 bits.
fn fill_past_all(random: &mut Random) -> Fill {
    let behind = (MAX_TABLE_BYTES / ROW_BYTES) as u32;
    let past = [
        (behind, 1),
        (behind + 1, 0),
        (0, behind + 1),
        (u32::MAX, 1),
        (1, u32::MAX),
        (1 << 27, 0),
    ];
    let (first, rows) = *random.pick(&past);
    Fill {
        first,
        rows,
        ..any_rows(random, 0)
    }
}

/// The body of an `O` entry.
pub(super) fn opening(table: usize, roll: usize) -> Vec<u8> {
    let mut body = (table as u32).to_le_bytes().to_vec();
    body.extend((roll as u32).to_le_bytes());
    body
}
