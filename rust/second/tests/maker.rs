//! What the tape maker promises of its tapes.

mod common;

use std::cmp::Ordering;
use std::ops::Range;

use common::tapes::{entries, entries_of, lines_of, long_tapes, tapes, Tape, SEEDS};
use second::answer::{Answer, Row, SPENT};
use second::bytes::{hex, Bytes32, Reader};
use second::case::{Case, Edition, MAX_SUM};
use second::desk;
use second::hashes;
use second::judge::{all_refusals, first_refusal, judge, Rule, RULES};
use second::ledger::{Ledger, MAX_POOL, ROW_BYTES};
use second::maker::bends::BENDS;
use second::maker::make_tape;
use second::maker::tampers::TAMPERS;
use second::seal::{Calibration, Gate, Seal, SEAL_BYTES};
use second::tape::{play, read_plant, Player};
use second::tree::{climb, parent, root_of_leaves, Record};

/// Every answer that a tape of 600 entries must give.
fn wanted_answers() -> Vec<(&'static str, Answer)> {
    let mut wanted: Vec<(&str, Answer)> = RULES.iter().map(|rule| ("case", rule.answer)).collect();
    wanted.extend(desk::rules().map(|rule| ("desk", rule.answer)));
    for (kind, numbers) in [
        ("case", &[0, 1][..]),
        ("desk", &[0, 1]),
        ("open", &[0, 1]),
        ("block", &[0, 2, 3]),
        ("seal", &[0, 20, 21, 22, 23]),
        ("plant", &[0]),
    ] {
        wanted.extend(numbers.iter().map(|number| (kind, Answer::new(*number, 0))));
    }
    wanted
}

#[test]
fn a_tape_of_600_entries_reaches_everything_in_3500_kilobytes() {
    for (seed, tape) in tapes() {
        assert!(tape.bytes.len() < 3_500_000, "seed {seed}");
        for (kind, answer) in wanted_answers() {
            let times = tape.coverage.times(kind, answer);
            assert!(times > 0, "seed {seed}: {kind} {answer}");
        }
        for bend in BENDS {
            for edition in Edition::ALL {
                let times = tape.coverage.times_made_in(edition, bend.name);
                assert!(times > 0, "seed {seed}: {} ({edition})", bend.name);
            }
        }
        for length in [0, 1, 4_105, 4_107, 4_209, 4_211] {
            let purpose = format!("case of {length} bytes");
            let times = tape.coverage.times_made_for(&purpose);
            assert!(times > 0, "seed {seed}: {purpose}");
        }
        for tamper in TAMPERS {
            let purpose = format!("planted: {}", tamper.name);
            let times = tape.coverage.times_made_for(&purpose);
            assert!(times > 0, "seed {seed}: {purpose}");
        }
    }
}

#[test]
fn neighbours_in_the_table_are_tried_against_each_other() {
    let answers: Vec<Answer> = RULES[2..].iter().map(|rule| rule.answer).collect();
    for (seed, tape) in tapes() {
        for pair in answers.windows(2) {
            if pair[0].number == 5 && pair[1].number == 5 {
                continue;
            }
            let purpose = format!("pair {} before {}", pair[0], pair[1]);
            let times = tape.coverage.times_made_for(&purpose);
            assert!(times > 0, "seed {seed}: {purpose}");
        }
    }
}

/// The entries of a tape before the runs for depots, whose tables are long.
fn before_depots(tape: &[u8]) -> Vec<(u8, &[u8])> {
    let mut entries = entries(tape);
    let name = DEPOT_RUNS[0].0.as_bytes();
    let depots = entries.iter().position(|entry| *entry == (b'N', name));
    entries.truncate(depots.unwrap_or(entries.len()));
    entries
}

/// For each case of a right length on a tape, which rules apply to it.
fn applying_rules(tape: &[u8]) -> Vec<Vec<bool>> {
    let mut player = Player::new();
    let mut applying = Vec::new();
    for (kind, body) in before_depots(tape) {
        if let (b'C', Some(case)) = (kind, Case::read(body)) {
            let applies = |rule: &Rule| (rule.applies)(&player.ledger, &case);
            applying.push(RULES.iter().map(applies).collect());
        }
        if player.play(kind, body).is_none() {
            break;
        }
    }
    applying
}

/// What a judge with the rules in this order answers: the first that applies.
fn first_of(order: &[usize], applies: &[bool]) -> Option<usize> {
    order.iter().copied().find(|rule| applies[*rule])
}

#[test]
fn a_tape_tells_judges_that_drop_or_swap_a_rule() {
    let right: Vec<usize> = (0..RULES.len()).collect();
    for (_, tape) in tapes() {
        let applying = applying_rules(&tape.judged);
        let is_told = |order: &[usize]| {
            let differs =
                |applies: &Vec<bool>| first_of(order, applies) != first_of(&right, applies);
            applying.iter().any(differs)
        };
        assert!(!is_told(&right));
        for (index, rule) in RULES.iter().enumerate() {
            let mut dropped = right.clone();
            dropped.remove(index);
            assert!(is_told(&dropped), "without {}", rule.answer);
        }
        for (index, rule) in RULES.iter().enumerate().skip(1) {
            let mut swapped = right.clone();
            swapped.swap(index - 1, index);
            // Both public values cannot be too high without refusal 4.
            let is_exempt = rule.answer == Answer::new(5, 2);
            assert_eq!(is_told(&swapped), !is_exempt, "{} first", rule.answer);
        }
    }
}

/// The cases on a tape in this edition, each with the ledger it came to.
fn judged_in(edition: Edition, tape: &[u8]) -> Vec<(Ledger, Case)> {
    let mut judged = judged_cases(tape);
    judged.retain(|(_, case)| case.edition() == edition);
    judged
}

#[test]
fn a_tape_finds_judges_that_drop_a_rule_or_compare_too_little_in_one_edition() {
    // Rows off by one byte, and roots off by one, come in either edition by the dice.
    let in_both = |rule: &(u8, u8, Partly)| ![2, 10].contains(&rule.0);
    for (seed, tape) in tapes() {
        for edition in Edition::ALL {
            let judged = judged_in(edition, &tape.judged);
            for Rule { answer, .. } in RULES {
                let is_found = is_found(&judged, answer, |_, _| false);
                assert!(is_found, "seed {seed}: {answer}, {edition} edition");
            }
            for (number, place, partly) in COMPARING.into_iter().filter(in_both) {
                let answer = Answer::new(number, place);
                for seen in [0..31, 1..32] {
                    let other = |ledger: &Ledger, case: &Case| partly(ledger, case, seen.clone());
                    let is_found = is_found(&judged, answer, other);
                    assert!(
                        is_found,
                        "seed {seed}: {answer} {seen:?}, {edition} edition"
                    );
                }
            }
        }
    }
}

/// Whether a rule applies to a judge that sees only these bytes of the fields
/// that the rule compares.
type Partly = fn(&Ledger, &Case, Range<usize>) -> bool;

/// Every rule that compares fields of 32 bytes.
const COMPARING: [(u8, u8, Partly); 17] = [
    (2, 0, |ledger, _, seen| {
        seen_partly(ledger, seen).is_damaged()
    }),
    (6, 0, |ledger, case, seen| {
        !has(ledger.anchor_rows(), &case.anchor, seen)
    }),
    (7, 0, |_, case, seen| {
        has(&case.nullifiers[..1], &case.nullifiers[1], seen)
    }),
    (8, 1, |ledger, case, seen| {
        has(ledger.spent_rows(), &case.nullifiers[0], seen)
    }),
    (8, 2, |ledger, case, seen| {
        has(ledger.spent_rows(), &case.nullifiers[1], seen)
    }),
    (10, 1, |_, case, seen| path_fails(case, 0, seen)),
    (10, 2, |_, case, seen| path_fails(case, 1, seen)),
    (12, 1, |_, case, seen| nullifier_is_wrong(case, 0, seen)),
    (12, 2, |_, case, seen| nullifier_is_wrong(case, 1, seen)),
    (13, 1, |_, case, seen| address_is_wrong(case, 0, seen)),
    (13, 2, |_, case, seen| address_is_wrong(case, 1, seen)),
    (14, 1, |_, case, seen| tag_is_wrong(case, 0, seen)),
    (14, 2, |_, case, seen| tag_is_wrong(case, 1, seen)),
    (15, 1, |_, case, seen| new_rho_is_wrong(case, 0, seen)),
    (15, 2, |_, case, seen| new_rho_is_wrong(case, 1, seen)),
    (16, 1, |_, case, seen| commitment_is_wrong(case, 0, seen)),
    (16, 2, |_, case, seen| commitment_is_wrong(case, 1, seen)),
];

/// Whether one of these fields is this one, as far as they are seen.
fn has(fields: &[Bytes32], field: &Bytes32, seen: Range<usize>) -> bool {
    let is_alike = |other: &Bytes32| other[seen.clone()] == field[seen.clone()];
    fields.iter().any(is_alike)
}

/// The ledger with the unseen bytes of its used table rows all alike.
fn seen_partly(ledger: &Ledger, seen: Range<usize>) -> Ledger {
    let mut ledger = ledger.clone();
    let used = ledger.spent_rows().len();
    for row in ledger.table.chunks_exact_mut(ROW_BYTES).take(used) {
        row[..seen.start].fill(0);
        row[seen.end..].fill(0);
    }
    ledger
}

fn path_fails(case: &Case, which: usize, seen: Range<usize>) -> bool {
    let note = &case.old[which];
    let root = climb(&note.commitment(), note.position, &note.path);
    note.value.0 != 0 && !has(&[root], &case.anchor, seen)
}

fn nullifier_is_wrong(case: &Case, which: usize, seen: Range<usize>) -> bool {
    let note = &case.old[which];
    let right = hashes::nullifier(&note.a_sk, &note.rho);
    !has(&[right], &case.nullifiers[which], seen)
}

fn address_is_wrong(case: &Case, which: usize, seen: Range<usize>) -> bool {
    let note = &case.old[which];
    !has(&[hashes::address(&note.a_sk)], &note.a_pk, seen)
}

fn tag_is_wrong(case: &Case, which: usize, seen: Range<usize>) -> bool {
    let right = hashes::tag(which, &case.old[which].a_sk, &case.h_sig());
    !has(&[right], &case.tags[which], seen)
}

fn new_rho_is_wrong(case: &Case, which: usize, seen: Range<usize>) -> bool {
    let right = hashes::new_rho(which, &case.phi, &case.h_sig());
    !has(&[right], &case.new[which].rho, seen)
}

fn commitment_is_wrong(case: &Case, which: usize, seen: Range<usize>) -> bool {
    let right = case.new[which].commitment();
    !has(&[right], &case.commitments[which], seen)
}

/// The cases of a right length on a tape, each with the ledger it came to.
fn judged_cases(tape: &[u8]) -> Vec<(Ledger, Case)> {
    let mut player = Player::new();
    let mut judged = Vec::new();
    for (kind, body) in before_depots(tape) {
        if let (b'C', Some(case)) = (kind, Case::read(body)) {
            judged.push((player.ledger.clone(), case));
        }
        if player.play(kind, body).is_none() {
            break;
        }
    }
    judged
}

/// Whether a judge that has another test in place of one rule gives another
/// answer to one of these cases.
fn is_found(
    judged: &[(Ledger, Case)],
    answer: Answer,
    other: impl Fn(&Ledger, &Case) -> bool,
) -> bool {
    judged.iter().any(|(ledger, case)| {
        let applies = |rule: &&Rule| {
            if rule.answer == answer {
                other(ledger, case)
            } else {
                (rule.applies)(ledger, case)
            }
        };
        let given = RULES.iter().find(applies).map(|rule| rule.answer);
        given != first_refusal(ledger, case).map(Answer::without_row)
    })
}

#[test]
fn a_tape_finds_judges_that_compare_one_byte_too_few() {
    for (seed, tape) in tapes() {
        let judged = judged_cases(&tape.judged);
        for (number, place, partly) in COMPARING {
            let answer = Answer::new(number, place);
            let found = |seen: Range<usize>| {
                is_found(&judged, answer, |ledger, case| {
                    partly(ledger, case, seen.clone())
                })
            };
            assert!(!found(0..32), "{answer} is as the judge has it");
            assert!(found(0..31), "seed {seed}: {answer} without the last");
            assert!(found(1..32), "seed {seed}: {answer} without the first");
        }
    }
}

#[test]
fn a_tape_finds_judges_that_leave_out_one_of_a_key_s_top_bits() {
    for (_, tape) in tapes() {
        let judged = judged_cases(&tape.judged);
        for left_out in [0x80, 0x40, 0x20, 0x10] {
            let has_top_bits = |key: &Bytes32| key[0] & (0xf0 ^ left_out) != 0;
            for which in 0..2 {
                let misformed = |_: &Ledger, case: &Case| {
                    let note = &case.old[which];
                    has_top_bits(&note.a_sk) || !note.position.is_in_tree()
                };
                let answer = Answer::new(9, which as u8 + 1);
                assert!(is_found(&judged, answer, misformed), "{answer} {left_out}");
            }
            let misformed = |_: &Ledger, case: &Case| has_top_bits(&case.phi);
            let answer = Answer::new(9, 3);
            assert!(is_found(&judged, answer, misformed), "{answer} {left_out}");
        }
    }
}

/// The ledgers that entries of these kinds came to.
fn ledgers_before(tape: &[u8], kinds: &[u8]) -> Vec<Ledger> {
    let mut player = Player::new();
    let mut found = Vec::new();
    for (kind, body) in before_depots(tape) {
        if kinds.contains(&kind) {
            found.push(player.ledger.clone());
        }
        if player.play(kind, body).is_none() {
            break;
        }
    }
    found
}

/// A wrong opening: what it changes of a ledger that was opened rightly, by
/// what was there before.
type Opening = fn(&Ledger, &mut Ledger);

const WRONG_OPENINGS: [(&str, Opening); 9] = [
    ("clears the table", |_, after| after.table.fill(0)),
    ("clears the table's last byte", |_, after| {
        after.table.iter_mut().rev().take(1).for_each(|b| *b = 0);
    }),
    ("clears the roll's second row", |_, after| {
        after.roll.iter_mut().skip(32).take(32).for_each(|b| *b = 0);
    }),
    ("clears the roll's last byte", |_, after| {
        after.roll.iter_mut().rev().take(1).for_each(|b| *b = 0);
    }),
    ("clears a roll without a row", |_, after| {
        if after.roll.len() < ROW_BYTES {
            after.roll.fill(0);
        }
    }),
    ("keeps the nullifiers", |before, after| {
        after.spent = before.spent;
    }),
    ("keeps the record", |before, after| {
        after.tree = before.tree.clone();
    }),
    ("keeps the pool", |before, after| after.pool = before.pool),
    ("counts an anchor where it refuses", |_, after| {
        after.anchors = 1;
    }),
];

#[test]
fn a_tape_finds_openings_that_write_too_much() {
    for (seed, tape) in tapes() {
        let opened = ledgers_before(&tape.judged, b"F");
        for (name, change) in WRONG_OPENINGS {
            let is_found = opened.iter().any(|before| {
                let (right, _) = Ledger::open(before.table.clone(), before.roll.clone());
                let mut wrong = right.clone();
                change(before, &mut wrong);
                wrong != right
            });
            assert!(is_found, "seed {seed}: an opening that {name}");
        }
    }
}

/// The used rows of ledgers that nothing else damages.
fn rows_that_decide(tape: &[u8]) -> Vec<Vec<Bytes32>> {
    let is_sound_besides = |ledger: &&Ledger| {
        let mut other = (*ledger).clone();
        let used = other.spent_rows().len();
        for (index, row) in other.table.chunks_exact_mut(32).take(used).enumerate() {
            row.fill(0);
            row[..2].copy_from_slice(&(index as u16).to_be_bytes());
        }
        !other.is_damaged()
    };
    let ledgers = ledgers_before(tape, b"BC");
    let deciding = ledgers.iter().filter(is_sound_besides);
    deciding
        .map(|ledger| ledger.spent_rows().to_vec())
        .collect()
}

/// Whether rows rise once each is seen in another way.
fn rise_by<T: PartialOrd>(rows: &[Bytes32], seen: impl Fn(&Bytes32) -> T) -> bool {
    rows.windows(2).all(|pair| seen(&pair[0]) < seen(&pair[1]))
}

#[test]
fn a_tape_finds_walks_that_compare_rows_otherwise() {
    for (_, tape) in tapes() {
        let tables = rows_that_decide(&tape.judged);
        let is_found = |wrong: &dyn Fn(&[Bytes32]) -> bool| {
            let differs = |rows: &Vec<Bytes32>| wrong(rows) != rise_by(rows, |row| *row);
            tables.iter().any(differs)
        };
        for byte in 0..ROW_BYTES {
            let without = |row: &Bytes32| [&row[..byte], &row[byte + 1..]].concat();
            assert!(is_found(&|rows| rise_by(rows, without)), "without {byte}");
            let signed = |row: &Bytes32| {
                let mut row = *row;
                row[byte] ^= 0x80;
                row
            };
            assert!(is_found(&|rows| rise_by(rows, signed)), "{byte} signed");
        }
        let other_pairs =
            |rows: &[Bytes32]| rows.chunks(2).all(|pair| pair[0] < pair[pair.len() - 1]);
        assert!(is_found(&other_pairs), "every other pair");
        let ends = |rows: &[Bytes32]| {
            let pairs: Vec<_> = rows.windows(2).collect();
            let is_rising = |pair: Option<&&[Bytes32]>| pair.is_none_or(|pair| pair[0] < pair[1]);
            is_rising(pairs.first()) && is_rising(pairs.last())
        };
        assert!(is_found(&ends), "the first and the last pair alone");
    }
}

/// The sums of a case in two parts: how many times 2^32, and the rest.
fn parts(sum: u128) -> (u128, u128) {
    (sum >> 32, sum % (1 << 32))
}

/// A sum whose parts are added apart, the carry lost.
fn without_carry(amounts: [u64; 3]) -> (u64, u64) {
    let add = |part: fn(u64) -> u64| amounts.iter().map(|amount| part(*amount)).sum::<u64>();
    (
        add(|amount| amount >> 32),
        add(|amount| amount % (1 << 32)) % (1 << 32),
    )
}

#[test]
fn a_tape_finds_sums_that_are_compared_in_part() {
    for (seed, tape) in tapes() {
        let judged = judged_cases(&tape.judged);
        let found = |differ: fn(&Case) -> bool| {
            is_found(&judged, Answer::new(11, 0), |_, case| {
                differ(case) || case.value_in() > MAX_SUM
            })
        };
        assert!(
            found(|case| parts(case.value_in()).0 != parts(case.value_out()).0),
            "seed {seed}: the high part"
        );
        assert!(
            found(|case| parts(case.value_in()).1 != parts(case.value_out()).1),
            "seed {seed}: the low part"
        );
        assert!(
            found(|case| {
                let [paid, made] = sides(case).map(without_carry);
                paid != made
            }),
            "seed {seed}: no carry"
        );
    }
}

/// The summands of the two sides of the balance, the public value first.
fn sides(case: &Case) -> [[u64; 3]; 2] {
    let paid = [case.vpub_old, case.old[0].value, case.old[1].value];
    let made = [case.vpub_new, case.new[0].value, case.new[1].value];
    [paid, made].map(|amounts| amounts.map(|amount| amount.0))
}

/// Whether a wrong judge takes a case to be above the ceiling.
type Ceiling = fn(&Case) -> bool;

/// Ways to be above the ceiling that are wrong, each with its name.
const CEILINGS: [(&str, Ceiling); 7] = [
    ("no ceiling", |_| false),
    ("below, not at most", |case| case.value_in() >= MAX_SUM),
    ("one too high", |case| case.value_in() > MAX_SUM + 1),
    ("old values without the public one", |case| {
        case.value_in() - case.vpub_old.whole() > MAX_SUM
    }),
    ("new values without the public one", |case| {
        case.value_out() - case.vpub_new.whole() > MAX_SUM
    }),
    ("sums that wrap", |case| {
        u128::from(case.value_in() as u64) > MAX_SUM
    }),
    ("sums of 65 bits", |case| case.value_in() >> 65 != 0),
];

#[test]
fn a_tape_finds_wrong_ceilings_of_the_balance() {
    for (seed, tape) in tapes() {
        let judged = judged_cases(&tape.judged);
        let found = |is_above: fn(&Case) -> bool| {
            is_found(&judged, Answer::new(11, 0), |_, case| {
                case.value_in() != case.value_out() || is_above(case)
            })
        };
        assert!(!found(|case| case.value_out() > MAX_SUM), "the right one");
        for (name, is_above) in CEILINGS {
            assert!(found(is_above), "seed {seed}: {name}");
        }
    }
}

#[test]
fn a_tape_finds_a_ceiling_that_is_asked_too_early_or_too_late() {
    for (seed, tape) in tapes() {
        let judged = judged_cases(&tape.judged);
        let mut above = judged
            .iter()
            .filter(|(_, case)| case.value_in() == case.value_out() && case.value_in() > MAX_SUM)
            .map(|(ledger, case)| all_refusals(ledger, case));
        assert!(
            above.clone().any(|refusals| refusals[0].number == 10),
            "seed {seed}: 10 comes before it"
        );
        assert!(
            above.any(|refusals| refusals[0].number == 11 && refusals.len() > 1),
            "seed {seed}: it comes before what is asked later"
        );
    }
}

/// Where a row stands, or else the gap for it: what `binary_search` gives.
type Place = Result<usize, usize>;

/// How a search by halves goes on: the rows that are left at first, and those
/// left of them where the row is below the middle one or above it.
struct Halving {
    first: fn(usize) -> Range<usize>,
    below: fn(Range<usize>, usize) -> Range<usize>,
    above: fn(Range<usize>, usize) -> Range<usize>,
}

const RIGHT: Halving = Halving {
    first: |rows| 0..rows,
    below: |left, middle| left.start..middle,
    above: |left, middle| middle + 1..left.end,
};

impl Halving {
    /// Searches rows as they are seen; by then a right search has long ended.
    fn search<T: Ord>(&self, rows: &[T], row: &T) -> Place {
        let mut left = (self.first)(rows.len());
        for _ in 0..64 {
            if left.is_empty() {
                break;
            }
            let middle = left.start + left.len() / 2;
            left = match row.cmp(&rows[middle]) {
                Ordering::Equal => return Ok(middle),
                Ordering::Less => (self.below)(left, middle),
                Ordering::Greater => (self.above)(left, middle),
            };
        }
        Err(left.start)
    }
}

/// Searches by halves that are wrong, each with its name.
const WRONG_HALVINGS: [(&str, Halving); 6] = [
    (
        "never looks at the last row",
        Halving {
            first: |rows| 0..rows.saturating_sub(1),
            ..RIGHT
        },
    ),
    (
        "never looks at the first row",
        Halving {
            first: |rows| 1.min(rows)..rows,
            ..RIGHT
        },
    ),
    (
        "leaves out the row below the middle",
        Halving {
            below: |left, middle| left.start..middle.max(left.start + 1) - 1,
            ..RIGHT
        },
    ),
    (
        "leaves out the row above the middle",
        Halving {
            above: |left, middle| (middle + 2).min(left.end)..left.end,
            ..RIGHT
        },
    ),
    (
        "keeps the middle when it is below",
        Halving {
            below: |left, middle| left.start..middle + 1,
            ..RIGHT
        },
    ),
    (
        "keeps the middle when it is above",
        Halving {
            above: |left, middle| middle..left.end,
            ..RIGHT
        },
    ),
];

/// A case whose nullifiers are looked for: the rows, the nullifiers, and whether
/// they are then entered.
struct Searched {
    rows: Vec<Bytes32>,
    nullifiers: [Bytes32; 2],
    is_entered: bool,
}

/// The cases of a tape that no refusal before 8 applies to.
fn searched_cases(tape: &[u8]) -> Vec<Searched> {
    let mut searched = Vec::new();
    for (ledger, case) in judged_cases(tape) {
        let answer = first_refusal(&ledger, &case);
        if answer.is_none_or(|answer| answer.number >= 8) {
            searched.push(Searched {
                rows: ledger.spent_rows().to_vec(),
                nullifiers: case.nullifiers,
                is_entered: answer.is_none(),
            });
        }
    }
    searched
}

impl Searched {
    /// Whether a judge with another search answers otherwise, or puts a
    /// nullifier elsewhere.
    fn tells(&self, search: &impl Fn(&[Bytes32], &Bytes32) -> Place) -> bool {
        let [first, second] = &self.nullifiers;
        let asks = |nullifier: &Bytes32| {
            let is_spent = self.rows.contains(nullifier);
            (is_spent, search(&self.rows, nullifier).is_ok() != is_spent)
        };
        let (is_spent, differs) = asks(first);
        if differs || !is_spent && asks(second).1 {
            return true;
        }
        let mut rows = self.rows.clone();
        self.is_entered
            && [first, second].into_iter().any(|nullifier| {
                let gap = rows.partition_point(|row| row < nullifier);
                let differs = search(&rows, nullifier) != Err(gap);
                rows.insert(gap, *nullifier);
                differs
            })
    }
}

#[test]
fn a_long_tape_finds_searches_that_go_wrong() {
    for (seed, tape) in long_tapes() {
        let searched = searched_cases(&tape.judged);
        let found = |halving: &Halving| {
            let search = |rows: &[Bytes32], row: &Bytes32| halving.search(rows, row);
            searched.iter().any(|case| case.tells(&search))
        };
        assert!(!found(&RIGHT), "seed {seed}: the right one");
        for (name, halving) in WRONG_HALVINGS {
            assert!(found(&halving), "seed {seed}: one that {name}");
        }
    }
}

#[test]
fn a_long_tape_finds_gaps_that_are_one_off_at_either_end() {
    for (seed, tape) in long_tapes() {
        let searched = searched_cases(&tape.judged);
        let found = |moved: fn(usize, usize) -> usize| {
            let search = |rows: &[Bytes32], row: &Bytes32| {
                rows.binary_search(row)
                    .map_err(|gap| moved(gap, rows.len()))
            };
            searched.iter().any(|case| case.tells(&search))
        };
        assert!(!found(|gap, _| gap), "seed {seed}: as they are");
        assert!(
            found(|gap, rows| gap.max(1).min(rows)),
            "seed {seed}: below"
        );
        assert!(
            found(|gap, rows| gap.min(rows.max(1) - 1)),
            "seed {seed}: above"
        );
    }
}

#[test]
fn a_long_tape_finds_searches_by_another_order() {
    for (seed, tape) in long_tapes() {
        let searched = searched_cases(&tape.judged);
        for byte in 0..ROW_BYTES {
            let without = |row: &Bytes32| [&row[..byte], &row[byte + 1..]].concat();
            assert!(finds_order(&searched, without), "{seed}: without {byte}");
            let signed = |row: &Bytes32| {
                let mut row = *row;
                row[byte] ^= 0x80;
                row
            };
            assert!(finds_order(&searched, signed), "{seed}: {byte} signed");
        }
    }
}

/// Whether a right search by another order is found.
fn finds_order<T: Ord>(searched: &[Searched], seen: impl Fn(&Bytes32) -> T) -> bool {
    let search = |rows: &[Bytes32], row: &Bytes32| {
        let rows: Vec<T> = rows.iter().map(&seen).collect();
        RIGHT.search(&rows, &seen(row))
    };
    searched.iter().any(|case| case.tells(&search))
}

/// The runs for the row of a spent nullifier: what their cases are answered.
const ROW_RUNS: [(&str, &[&str]); 11] = [
    ("spent-in-row-2045", &["case 8 1", "row 2045"]),
    ("spent-in-a-full-table", &["case 0 0", "case 3 0"]),
    (
        "spent-in-first-row",
        &["case 8 1", "row 0", "case 8 2", "row 0"],
    ),
    (
        "spent-in-middle-row",
        &["case 8 1", "row 3", "case 8 2", "row 3"],
    ),
    (
        "spent-in-last-row",
        &["case 8 1", "row 7", "case 8 2", "row 7"],
    ),
    ("both-spent", &["case 8 1", "row 3", "case 8 1", "row 7"]),
    ("row-before-a-shift", &["case 8 1", "row 4"]),
    ("off-in-the-last-byte", &["case 0 0", "case 8 1", "row 1"]),
    ("row-shifted-by-two", &["case 8 1", "row 6"]),
    ("row-not-shifted", &["case 0 0", "case 8 1", "row 6"]),
    ("row-shifted-by-one", &["case 0 0", "case 8 1", "row 7"]),
];

/// The lines of a run that are about cases: answers, and rows.
fn case_lines<'a>(lines: &'a [String], run: &str) -> Vec<&'a str> {
    lines_of(lines, run)
        .filter(|line| line.starts_with("case ") || line.starts_with("row "))
        .collect()
}

#[test]
fn a_tape_of_600_entries_shows_the_rows_of_its_row_runs() {
    for (seed, tape) in tapes() {
        let lines = &tape.lines;
        for (run, expected) in ROW_RUNS {
            assert_eq!(case_lines(lines, run), expected, "seed {seed}: {run}");
        }
    }
}

#[test]
fn a_row_stands_behind_each_case_that_is_refused_as_spent_and_nowhere_else() {
    for (_, tape) in tapes() {
        let lines = &tape.lines;
        for pair in lines.windows(2) {
            let is_spent = pair[0].starts_with("case 8 ");
            assert_eq!(pair[1].starts_with("row "), is_spent, "{pair:?}");
        }
    }
}

/// A case that is refused as spent.
struct Refused {
    /// The run that it is in.
    run: String,
    /// The rows that it met, and the same in the order in which they came: first
    /// those that were planted, then each accepted case's.
    rows: Vec<Bytes32>,
    arrived: Vec<Bytes32>,
    /// How many rows the table has room for.
    room: usize,
    nullifiers: [Bytes32; 2],
    /// Which of them is named, 0 or 1, and with which row.
    which: usize,
    row: usize,
}

/// The cases of a tape that are refused as spent.
fn refused_as_spent(tape: &[u8]) -> Vec<Refused> {
    let mut player = Player::new();
    let (mut run, mut arrived, mut refused) = (String::new(), Vec::new(), Vec::new());
    for (kind, body) in before_depots(tape) {
        let rows = player.ledger.spent_rows().to_vec();
        let room = player.ledger.table_room() as usize;
        let Some(lines) = player.play(kind, body) else {
            break;
        };
        match (kind, lines.first().map(String::as_str)) {
            (b'N', Some(name)) => run = name["run ".len()..].to_owned(),
            (b'O' | b'F' | b'P' | b'T', _) => arrived = player.ledger.spent_rows().to_vec(),
            (b'C', Some("case 0 0")) => arrived.extend(nullifiers_of(body)),
            (b'C', Some(line)) if line.starts_with("case 8 ") => refused.push(Refused {
                run: run.clone(),
                rows,
                arrived: arrived.clone(),
                room,
                nullifiers: nullifiers_of(body),
                which: usize::from(line == "case 8 2"),
                row: lines[1]["row ".len()..].parse().expect("a row"),
            }),
            _ => (),
        }
    }
    refused
}

fn nullifiers_of(file: &[u8]) -> [Bytes32; 2] {
    Case::read(file).expect("a case that was judged").nullifiers
}

impl Refused {
    fn named(&self) -> &Bytes32 {
        &self.nullifiers[self.which]
    }

    /// The row where the nullifier of this index stands, or would go.
    fn place_of(&self, which: usize) -> usize {
        let nullifier = &self.nullifiers[which];
        self.rows.partition_point(|row| row < nullifier)
    }

    /// The first row that is the named one as far as both are seen.
    fn first_alike(&self, seen: Range<usize>) -> usize {
        let named = &self.named()[seen.clone()];
        let is_alike = |row: &Bytes32| row[seen.clone()] == *named;
        self.rows.iter().position(is_alike).expect("its own row")
    }

    /// The rows of those nullifiers that are spent.
    fn rows_of_both(&self) -> impl Iterator<Item = usize> + '_ {
        let spent = [0, 1].into_iter();
        spent
            .filter(|which| self.rows.contains(&self.nullifiers[*which]))
            .map(|which| self.place_of(which))
    }

    /// The named row's place in the half of the table that a search by halves
    /// has left when it comes to it.
    fn row_in_its_half(&self) -> usize {
        let mut left = 0..self.rows.len();
        loop {
            let middle = left.start + left.len() / 2;
            left = match self.row.cmp(&middle) {
                Ordering::Equal => return middle - left.start,
                Ordering::Less => left.start..middle,
                Ordering::Greater => middle + 1..left.end,
            };
        }
    }
}

/// The row that a wrong judge names.
type WrongRow = fn(&Refused) -> usize;

/// Rows that are wrong, each with its name.
const WRONG_ROWS: [(&str, WrongRow); 21] = [
    ("is always 0", |_| 0),
    ("is counted from 1, or is the gap above", |case| {
        case.row + 1
    }),
    ("is the one before it", |case| case.row.saturating_sub(1)),
    ("is counted from the last used row", |case| {
        case.rows.len() - 1 - case.row
    }),
    (
        "is counted from the last row that there is room for",
        |case| case.room - 1 - case.row,
    ),
    ("is the last used row", |case| case.rows.len() - 1),
    ("is the first row that is not used", |case| case.rows.len()),
    ("is always nullifier 1's", |case| case.place_of(0)),
    ("is always nullifier 2's", |case| case.place_of(1)),
    ("is the other nullifier's", |case| {
        case.place_of(1 - case.which)
    }),
    ("is the lower one where both are spent", |case| {
        case.rows_of_both().min().expect("one of them")
    }),
    ("is the higher one where both are spent", |case| {
        case.rows_of_both().max().expect("one of them")
    }),
    ("counts nullifier 1 as entered where 2 is named", |case| {
        case.row + usize::from(case.nullifiers[0] < *case.named())
    }),
    ("is in the order in which the rows came", |case| {
        let is_named = |row: &Bytes32| row == case.named();
        case.arrived.iter().position(is_named).expect("it came")
    }),
    ("is the first with the same first byte", |case| {
        case.first_alike(0..1)
    }),
    ("is the first that is alike but for the last byte", |case| {
        case.first_alike(0..ROW_BYTES - 1)
    }),
    ("is counted within a half of the table", |case| {
        case.row_in_its_half()
    }),
    ("counts cases and not nullifiers", |case| case.row / 2),
    ("counts bytes", |case| ROW_BYTES * case.row),
    ("has eight bits", |case| case.row % (1 << 8)),
    ("has ten bits", |case| case.row % (1 << 10)),
];

#[test]
fn the_row_runs_of_a_tape_find_rows_that_are_wrong() {
    for (seed, tape) in tapes() {
        let mut refused = refused_as_spent(&tape.judged);
        let is_right = |case: &Refused| case.rows[case.row] == *case.named();
        assert!(refused.iter().all(is_right), "seed {seed}: the right one");
        refused.retain(|case| ROW_RUNS.iter().any(|(run, _)| *run == case.run));
        for (name, wrong) in WRONG_ROWS {
            let is_told = |case: &Refused| wrong(case) != case.row;
            let is_found = refused.iter().any(is_told);
            assert!(is_found, "seed {seed}: a row that {name}");
        }
    }
}

/// Where a judge would have a row to tell though it answers another number: the
/// row of a spent nullifier, or the gap for the first one.
fn leaked_row(ledger: &Ledger, case: &Case) -> usize {
    let rows = ledger.spent_rows();
    let is_spent = |nullifier: &&Bytes32| rows.contains(nullifier);
    let spent = case.nullifiers.iter().find(is_spent);
    let looked_for = spent.unwrap_or(&case.nullifiers[0]);
    rows.iter().filter(|row| *row < looked_for).count()
}

#[test]
fn a_tape_finds_rows_that_go_with_another_answer() {
    for (seed, tape) in tapes() {
        let judged = judged_cases(&tape.judged);
        for number in (0..=17).filter(|number| ![1, SPENT].contains(number)) {
            let leaks = |(ledger, case): &(Ledger, Case)| {
                let refusal = first_refusal(ledger, case).unwrap_or(Answer::PASSED);
                refusal.number == number && leaked_row(ledger, case) != refusal.row.0 as usize
            };
            let is_found = judged.iter().any(leaks);
            assert!(is_found, "seed {seed}: a row with answer {number}");
        }
    }
}

#[test]
fn a_tape_has_a_spent_nullifier_s_row_that_refusals_3_and_7_do_not_tell() {
    for (seed, tape) in tapes() {
        let judged = judged_cases(&tape.judged);
        for number in [3, 7] {
            let hides_a_row = |(ledger, case): &(Ledger, Case)| {
                let refusal = first_refusal(ledger, case);
                let row = ledger.row_of(&case.nullifiers[0]);
                refusal.is_some_and(|refusal| refusal.number == number)
                    && row.is_some_and(|row| row.0 > 0)
            };
            assert!(judged.iter().any(hides_a_row), "seed {seed}: {number}");
        }
    }
}

#[test]
fn a_long_tape_names_the_row_that_each_of_its_row_searches_planted() {
    for (seed, tape) in long_tapes() {
        let mut searches = 0;
        for case in refused_as_spent(&tape.judged) {
            let planted = case.run.strip_prefix("row-").and_then(|rest| {
                let (row, rows) = rest.split_once("-of-")?;
                Some((row.parse().ok()?, rows.parse().ok()?))
            });
            if let Some((row, rows)) = planted {
                assert_eq!((case.row, case.rows.len()), (row, rows), "{}", case.run);
                searches += 1;
            }
        }
        // Each row of 2, 4, 6 and 8, and three of 2,046.
        assert_eq!(searches, 23, "seed {seed}");
    }
}

/// The runs for the bounds of the pool: what their cases and closings are
/// answered, and what their ledgers have in the pool.
const POOL_RUNS: [(&str, &[&str]); 17] = [
    ("pool-16-before-17", &["case 16 2"]),
    ("pool-zero-less-one", &["case 17 0", "pool 0"]),
    ("pool-exactly-zero", &["case 0 0", "pool 0"]),
    (
        "pool-exactly-all-money",
        &["case 0 0", "pool 2100000000000000"],
    ),
    (
        "pool-one-above",
        &["case 17 0", "block 0 0", "pool 2100000000000000"],
    ),
    ("pool-2-before-17", &["case 2 0"]),
    (
        "pool-damage-one-above",
        &["case 2 0", "block 2 0", "pool 2100000000000001"],
    ),
    (
        "pool-damage-2-to-the-63",
        &["case 2 0", "block 2 0", "pool 9223372036854775808"],
    ),
    (
        "pool-damage",
        &["case 2 0", "block 2 0", "pool 18446744073709551615"],
    ),
    ("pool-order-c-d", &["case 0 0", "case 0 0", "pool 0"]),
    ("pool-order-d-c", &["case 17 0", "case 0 0", "pool 10"]),
    (
        "pool-order-met-c-d",
        &["case 0 0", "case 0 0", "pool 2100000000000000"],
    ),
    (
        "pool-order-met-d-c",
        &["case 0 0", "case 0 0", "pool 2100000000000000"],
    ),
    (
        "pool-order-missed-c-d",
        &["case 0 0", "case 17 0", "pool 2099999999999996"],
    ),
    (
        "pool-order-missed-d-c",
        &["case 0 0", "case 17 0", "pool 2099999999999995"],
    ),
    (
        "pool-shared-c-d",
        &["case 0 0", "case 8 2", "row 4", "pool 2099999999999996"],
    ),
    (
        "pool-shared-d-c",
        &["case 0 0", "case 8 1", "row 4", "pool 2099999999999995"],
    ),
];

/// What a line says of a case, a closing or the pool.
fn said_of_pool(line: &str) -> Option<String> {
    if let Some((_, behind)) = line.split_once(" pool ") {
        let pool = behind.split(' ').next()?;
        return Some(format!("pool {pool}"));
    }
    let is_said = ["case ", "row ", "block "]
        .iter()
        .any(|word| line.starts_with(word));
    is_said.then(|| line.to_owned())
}

#[test]
fn a_tape_of_600_entries_shows_the_pools_of_its_pool_runs() {
    for (seed, tape) in tapes() {
        let lines = &tape.lines;
        for (run, expected) in POOL_RUNS {
            let said: Vec<String> = lines_of(lines, run).filter_map(said_of_pool).collect();
            assert_eq!(said, expected, "seed {seed}: {run}");
        }
    }
}

/// The last line of a run that begins with this word.
fn last_line<'a>(lines: &'a [String], run: &str, word: &str) -> &'a str {
    let of_word = lines_of(lines, run).filter(|line| line.starts_with(word));
    of_word.last().expect("a line of this kind")
}

/// Two runs that leave the same table and roll, and other nodes of the record.
fn check_orders(seed: u64, tape: &Tape, runs: [&str; 2]) {
    let [one, other] = runs.map(|run| {
        let words = last_line(&tape.lines, run, "memory ").split(' ');
        words.collect::<Vec<&str>>()
    });
    assert_eq!(one[..3], other[..3], "seed {seed}: table and roll");
    assert_ne!(one[3], other[3], "seed {seed}: the record's nodes");
}

#[test]
fn in_either_order_the_runs_that_pass_leave_the_same_table_and_roll() {
    for (seed, tape) in tapes() {
        check_orders(seed, tape, ["pool-order-met-c-d", "pool-order-met-d-c"]);
        check_orders(seed, tape, ["edition-order-c-d", "edition-order-d-c"]);
    }
}

/// The entries of a tape's pool runs that judge or close: the ledger that each
/// came to, and the case if it is one.
fn asked_in_pool_runs(tape: &[u8]) -> Vec<(Ledger, Option<Case>)> {
    let mut player = Player::new();
    let (mut is_pool_run, mut asked) = (false, Vec::new());
    for (kind, body) in before_depots(tape) {
        if kind == b'N' {
            is_pool_run = POOL_RUNS.iter().any(|(run, _)| run.as_bytes() == body);
        }
        if is_pool_run && b"BC".contains(&kind) {
            let case = (kind == b'C').then(|| Case::read(body).expect("a right length"));
            asked.push((player.ledger.clone(), case));
        }
        if player.play(kind, body).is_none() {
            break;
        }
    }
    asked
}

/// Whether a wrong judge takes a case's pool to be outside its bounds, by what is
/// in it, what goes in and what comes out.
type WrongBounds = fn(u64, u64, u64) -> bool;

/// Ways to ask for the bounds that are wrong, each with its name.
const WRONG_BOUNDS: [(&str, WrongBounds); 14] = [
    ("asks for none", |_, _, _| false),
    ("asks for the lower one only", |pool, old, new| {
        pool + old < new
    }),
    ("asks for the upper one only", |pool, old, new| {
        (pool + old).saturating_sub(new) > MAX_POOL
    }),
    ("asks for the pool as it was", |pool, _, _| pool > MAX_POOL),
    ("refuses all money", |pool, old, new| {
        pool + old < new || pool + old - new >= MAX_POOL
    }),
    ("takes one more than all money", |pool, old, new| {
        pool + old < new || pool + old - new > MAX_POOL + 1
    }),
    ("refuses nothing left", |pool, old, new| {
        pool + old <= new || pool + old - new > MAX_POOL
    }),
    ("takes one less than nothing", |pool, old, new| {
        pool + old + 1 < new || (pool + old).saturating_sub(new) > MAX_POOL
    }),
    ("has a difference that wraps", |pool, old, new| {
        (pool + old).wrapping_sub(new) as i64 > MAX_POOL as i64
    }),
    ("has a change that wraps", |pool, old, new| {
        old.wrapping_sub(new) > MAX_POOL - pool
    }),
    ("has numbers of 32 bits", |pool, old, new| {
        let after = (pool as u32).checked_add(old as u32);
        after.is_none_or(|after| after < new as u32)
    }),
    ("has in and out exchanged", |pool, old, new| {
        pool + new < old || pool + new - old > MAX_POOL
    }),
    ("leaves out what is in the pool", |_, old, new| {
        old < new || old - new > MAX_POOL
    }),
    ("takes any pool of 51 bits", |pool, old, new| {
        pool + old < new || (pool + old - new) >> 51 != 0
    }),
];

#[test]
fn the_pool_runs_of_a_tape_find_bounds_that_are_wrong() {
    for (seed, tape) in tapes() {
        let asked = asked_in_pool_runs(&tape.judged);
        let judged: Vec<(Ledger, Case)> = asked
            .into_iter()
            .filter_map(|(ledger, case)| Some((ledger, case?)))
            .collect();
        let found = |is_outside: WrongBounds| {
            is_found(&judged, Answer::new(17, 0), |ledger, case| {
                is_outside(ledger.pool, case.vpub_old.0, case.vpub_new.0)
            })
        };
        let right: WrongBounds = |pool, old, new| pool + old < new || pool + old - new > MAX_POOL;
        assert!(!found(right), "seed {seed}: the right ones");
        for (name, wrong) in WRONG_BOUNDS {
            assert!(found(wrong), "seed {seed}: a judge that {name}");
        }
    }
}

#[test]
fn the_pool_runs_of_a_tape_find_a_17_that_is_asked_too_early() {
    let last = RULES.len() - 1;
    assert_eq!(RULES[last].answer, Answer::new(17, 0));
    for (seed, tape) in tapes() {
        let asked = asked_in_pool_runs(&tape.judged);
        for (index, rule) in RULES[..last].iter().enumerate() {
            let is_told = asked.iter().any(|(ledger, case)| {
                let Some(case) = case else { return false };
                let applies = |rule: &Rule| (rule.applies)(ledger, case);
                let first = RULES.iter().position(applies);
                applies(&RULES[last]) && first.is_some_and(|first| (index..last).contains(&first))
            });
            assert!(is_told, "seed {seed}: 17 before {}", rule.answer);
        }
    }
}

/// Whether a wrong judge takes a ledger to be damaged by its pool.
type WrongDamage = fn(&Ledger) -> bool;

/// Ways to take a pool for damage that are wrong, each with its name.
const WRONG_DAMAGES: [(&str, WrongDamage); 8] = [
    ("is never damage", |_| false),
    ("is asked for as it was before", |ledger| {
        let far = u128::from(ledger.pool.cast_signed().unsigned_abs());
        far > u128::from(ledger.spent / 2) * u128::from(MAX_POOL)
    }),
    ("is a signed number", |ledger| {
        ledger.pool.cast_signed() > MAX_POOL as i64
    }),
    ("is damage only below zero", |ledger| {
        ledger.pool.cast_signed() < 0
    }),
    ("may not have all money", |ledger| ledger.pool >= MAX_POOL),
    ("may have one more than all money", |ledger| {
        ledger.pool > MAX_POOL + 1
    }),
    ("has 63 bits", |ledger| ledger.pool << 1 >> 1 > MAX_POOL),
    ("may have all money for each case", |ledger| {
        u128::from(ledger.pool) > u128::from(ledger.spent / 2) * u128::from(MAX_POOL)
    }),
];

#[test]
fn the_pool_runs_of_a_tape_find_pools_that_are_wrongly_taken_for_damage_or_not() {
    for (seed, tape) in tapes() {
        let asked = asked_in_pool_runs(&tape.judged);
        let found = |wrong: WrongDamage| {
            asked.iter().any(|(ledger, _)| {
                let mut without_pool = ledger.clone();
                without_pool.pool = 0;
                let is_damaged = without_pool.is_damaged() || wrong(ledger);
                is_damaged != ledger.is_damaged()
            })
        };
        assert!(!found(|ledger| ledger.pool > MAX_POOL), "the right way");
        for (name, wrong) in WRONG_DAMAGES {
            assert!(found(wrong), "seed {seed}: a pool that {name}");
        }
    }
}

/// The runs for the two editions: how long their files are, what their cases and
/// closings are answered, and what their ledgers have in the pool.
const EDITION_RUNS: [(&str, &[usize], &[&str]); 11] = [
    (
        "edition-lengths",
        &[4_209, 4_211, 4_105, 4_107, 4_106, 4_210, 4_210, 4_106],
        &[
            "case 1 0", "case 1 0", "case 1 0", "case 1 0", "case 9 1", "case 9 1", "case 0 0",
            "case 0 0", "pool 20",
        ],
    ),
    (
        "edition-second-spends-first",
        &[4_210, 4_106, 4_210],
        &[
            "case 0 0",
            "block 0 0",
            "case 0 0",
            "case 8 1",
            "row 1",
            "pool 25",
        ],
    ),
    (
        "edition-first-spends-second",
        &[4_106, 4_210, 4_106],
        &[
            "case 0 0",
            "block 0 0",
            "case 0 0",
            "case 8 1",
            "row 1",
            "pool 25",
        ],
    ),
    (
        "edition-same-case-first",
        &[4_210, 4_210, 4_106],
        &["case 16 2", "case 0 0", "pool 10", "case 8 1", "row 4"],
    ),
    (
        "edition-same-case-second",
        &[4_106, 4_106, 4_210],
        &["case 16 2", "case 0 0", "pool 10", "case 8 1", "row 4"],
    ),
    (
        "edition-carried-first",
        &[4_210; 4],
        &["case 14 1", "case 14 2", "case 14 1", "case 0 0", "pool 10"],
    ),
    (
        "edition-carried-second",
        &[4_106; 4],
        &["case 14 1", "case 14 2", "case 14 1", "case 0 0", "pool 10"],
    ),
    (
        "edition-order-c-d",
        &[4_210, 4_106],
        &["case 0 0", "case 0 0", "pool 2"],
    ),
    (
        "edition-order-d-c",
        &[4_106, 4_210],
        &["case 0 0", "case 0 0", "pool 2"],
    ),
    (
        "edition-shared-c-d",
        &[4_210, 4_106],
        &["case 0 0", "case 8 2", "row 4", "pool 6"],
    ),
    (
        "edition-shared-d-c",
        &[4_106, 4_210],
        &["case 0 0", "case 8 1", "row 4", "pool 5"],
    ),
];

#[test]
fn a_tape_of_600_entries_shows_the_answers_of_its_edition_runs() {
    for (seed, tape) in tapes() {
        for (run, lengths, expected) in EDITION_RUNS {
            let said = lines_of(&tape.lines, run).filter_map(said_of_pool);
            assert_eq!(said.collect::<Vec<_>>(), expected, "seed {seed}: {run}");
            let entries = entries_of(&tape.judged, run).into_iter();
            let files = entries.filter(|(kind, _)| *kind == b'C');
            let made: Vec<usize> = files.map(|(_, file)| file.len()).collect();
            assert_eq!(made, lengths, "seed {seed}: {run}");
        }
    }
}

#[test]
fn one_case_leaves_the_same_ledger_and_memory_in_both_editions() {
    for (seed, tape) in tapes() {
        for word in ["ledger ", "memory "] {
            let [first, others @ ..] = [
                "edition-same-case-first",
                "edition-same-case-second",
                "edition-carried-first",
                "edition-carried-second",
            ]
            .map(|run| last_line(&tape.lines, run, word));
            assert!(others.iter().all(|other| *other == first), "seed {seed}");
        }
    }
}

/// A file that came to a judge.
struct Filed {
    ledger: Ledger,
    /// The files of a right length that came to that ledger before it.
    before: Vec<Vec<u8>>,
    file: Vec<u8>,
}

/// The files of those of a tape's runs that are meant by their names.
fn filed(tape: &[u8], is_meant: impl Fn(&str) -> bool) -> Vec<Filed> {
    let mut player = Player::new();
    let (mut is_in, mut before, mut filed) = (false, Vec::new(), Vec::new());
    for (kind, body) in before_depots(tape) {
        match kind {
            b'N' => is_in = is_meant(std::str::from_utf8(body).expect("a name")),
            b'O' | b'F' | b'P' | b'K' => before.clear(),
            b'C' => {
                if is_in {
                    filed.push(Filed {
                        ledger: player.ledger.clone(),
                        before: before.clone(),
                        file: body.to_vec(),
                    });
                }
                if Case::read(body).is_some() {
                    before.push(body.to_vec());
                }
            }
            _ => (),
        }
        if player.play(kind, body).is_none() {
            break;
        }
    }
    filed
}

/// The files of a tape's runs for the two editions.
fn filed_in_edition_runs(tape: &[u8]) -> Vec<Filed> {
    filed(tape, |run| {
        EDITION_RUNS.iter().any(|(name, ..)| *name == run)
    })
}

impl Filed {
    /// What a judge answers that reads this for the file.
    fn answer_to(&self, read: Option<Case>) -> Answer {
        match read {
            None => Answer::new(1, 0),
            Some(case) => first_refusal(&self.ledger, &case).unwrap_or(Answer::PASSED),
        }
    }

    fn right_answer(&self) -> Answer {
        self.answer_to(Case::read(&self.file))
    }

    /// Whether a judge that reads files in another way answers otherwise.
    fn tells(&self, read: impl Fn(&Filed) -> Option<Case>) -> bool {
        self.answer_to(read(self)) != self.right_answer()
    }
}

/// A field behind the proof: its name, where it starts in the first edition, and
/// how long it is.
type Field = (&'static str, usize, usize);

const BEHIND_THE_PROOF: [Field; 24] = [
    ("transaction key", 1_802, 32),
    ("key 1", 1_834, 32),
    ("address 1", 1_866, 32),
    ("old value 1", 1_898, 8),
    ("old rho 1", 1_906, 32),
    ("old trapdoor 1", 1_938, 32),
    ("position 1", 1_970, 4),
    ("path 1", 1_974, 928),
    ("key 2", 2_902, 32),
    ("address 2", 2_934, 32),
    ("old value 2", 2_966, 8),
    ("old rho 2", 2_974, 32),
    ("old trapdoor 2", 3_006, 32),
    ("position 2", 3_038, 4),
    ("path 2", 3_042, 928),
    ("new address 1", 3_970, 32),
    ("new value 1", 4_002, 8),
    ("new rho 1", 4_010, 32),
    ("new trapdoor 1", 4_042, 32),
    ("new address 2", 4_074, 32),
    ("new value 2", 4_106, 8),
    ("new rho 2", 4_114, 32),
    ("new trapdoor 2", 4_146, 32),
    ("phi", 4_178, 32),
];

/// Where a judge reads a field in a file, by its place in the first edition.
type Placing = fn(usize, Edition) -> usize;

/// Places that are wrong, each with its name.
const WRONG_PLACES: [(&str, Placing); 5] = [
    ("is not moved", |first, _| first),
    ("is moved in both", |first, _| first - 104),
    ("is moved the wrong way", |first, edition| match edition {
        Edition::First => first,
        Edition::Second => first + 104,
    }),
    ("is moved by a byte less", |first, edition| match edition {
        Edition::First => first,
        Edition::Second => first - 103,
    }),
    ("is moved by a byte more", |first, edition| match edition {
        Edition::First => first,
        Edition::Second => first - 105,
    }),
];

/// Where the fields behind the proof are.
const RIGHT_PLACE: Placing = |first, edition| match edition {
    Edition::First => first,
    Edition::Second => first - 104,
};

/// The case as a judge reads it that has these fields elsewhere. Past the end of a
/// file there are zero bytes.
fn read_elsewhere(file: &[u8], fields: &[Field], place: Placing) -> Option<Case> {
    let edition = Edition::of_length(file.len())?;
    let mut longer = file.to_vec();
    longer.resize(5_000, 0);
    let mut read = file.to_vec();
    for (_, first, length) in fields {
        let (from, to) = (place(*first, edition), RIGHT_PLACE(*first, edition));
        read[to..to + length].copy_from_slice(&longer[from..from + length]);
    }
    Case::read(&read)
}

#[test]
fn the_edition_runs_of_a_tape_find_each_field_that_is_not_moved_as_it_should() {
    for (seed, tape) in tapes() {
        let filed = filed_in_edition_runs(&tape.judged);
        let found = |fields: &[Field], place: Placing| {
            let is_told =
                |filed: &Filed| filed.tells(|filed| read_elsewhere(&filed.file, fields, place));
            filed.iter().any(is_told)
        };
        assert!(!found(&BEHIND_THE_PROOF, RIGHT_PLACE), "the right places");
        for (name, place) in WRONG_PLACES {
            for field in BEHIND_THE_PROOF {
                assert!(found(&[field], place), "seed {seed}: {} {name}", field.0);
            }
            let notes = &BEHIND_THE_PROOF[1..];
            assert!(found(notes, place), "seed {seed}: the witness {name}");
            let all = &BEHIND_THE_PROOF;
            assert!(found(all, place), "seed {seed}: all that {name}");
        }
    }
}

/// The edition that a judge takes a file of this length to be of, if it takes it.
type Taking = fn(usize) -> Option<Edition>;

/// Lengths that are wrongly taken, or not, each with its name.
const WRONG_LENGTHS: [(&str, Taking); 19] = [
    ("takes the first length only", |length| {
        (length == 4_210).then_some(Edition::First)
    }),
    ("takes the second length only", |length| {
        (length == 4_106).then_some(Edition::Second)
    }),
    ("reads both as of the first edition", |length| {
        [4_106, 4_210].contains(&length).then_some(Edition::First)
    }),
    ("reads both as of the second edition", |length| {
        [4_106, 4_210].contains(&length).then_some(Edition::Second)
    }),
    ("has the editions exchanged", |length| match length {
        4_210 => Some(Edition::Second),
        4_106 => Some(Edition::First),
        _ => None,
    }),
    (
        "takes all that is at least as long as one",
        |length| match length {
            4_210.. => Some(Edition::First),
            4_106.. => Some(Edition::Second),
            _ => None,
        },
    ),
    (
        "takes all that is at least as long as the first",
        |length| match length {
            4_210.. => Some(Edition::First),
            4_106 => Some(Edition::Second),
            _ => None,
        },
    ),
    (
        "takes all that is at most as long as one",
        |length| match length {
            0..=4_106 => Some(Edition::Second),
            4_107..=4_210 => Some(Edition::First),
            _ => None,
        },
    ),
    (
        "takes all that is at most as long as the second",
        |length| match length {
            0..=4_106 => Some(Edition::Second),
            4_210 => Some(Edition::First),
            _ => None,
        },
    ),
    (
        "takes all between, as of the first",
        |length| match length {
            4_106 => Some(Edition::Second),
            4_107..=4_210 => Some(Edition::First),
            _ => None,
        },
    ),
    (
        "takes all between, as of the second",
        |length| match length {
            4_106..=4_209 => Some(Edition::Second),
            4_210 => Some(Edition::First),
            _ => None,
        },
    ),
    ("takes 4,105 bytes", |length| {
        Edition::of_length(if length == 4_105 { 4_106 } else { length })
    }),
    ("takes 4,107 bytes as of the second", |length| {
        Edition::of_length(if length == 4_107 { 4_106 } else { length })
    }),
    ("takes 4,107 bytes as of the first", |length| {
        Edition::of_length(if length == 4_107 { 4_210 } else { length })
    }),
    ("takes 4,209 bytes as of the first", |length| {
        Edition::of_length(if length == 4_209 { 4_210 } else { length })
    }),
    ("takes 4,209 bytes as of the second", |length| {
        Edition::of_length(if length == 4_209 { 4_106 } else { length })
    }),
    ("takes 4,211 bytes", |length| {
        Edition::of_length(if length == 4_211 { 4_210 } else { length })
    }),
    ("leaves out the lowest bit of a length", |length| {
        Edition::of_length(length & !1)
    }),
    ("takes neither", |_| None),
];

/// The case as it is read by the layout of this edition: a longer file is cut, a
/// shorter one has zero bytes behind it.
fn read_as(file: &[u8], edition: Option<Edition>) -> Option<Case> {
    let mut file = file.to_vec();
    file.resize(edition?.case_bytes(), 0);
    Case::read(&file)
}

#[test]
fn the_edition_runs_of_a_tape_find_lengths_that_are_wrongly_taken_or_not() {
    for (seed, tape) in tapes() {
        let filed = filed_in_edition_runs(&tape.judged);
        let found = |taking: Taking| {
            let read = |filed: &Filed| read_as(&filed.file, taking(filed.file.len()));
            filed.iter().any(|filed| filed.tells(read))
        };
        assert!(!found(Edition::of_length), "seed {seed}: the right ones");
        for (name, taking) in WRONG_LENGTHS {
            assert!(found(taking), "seed {seed}: a judge that {name}");
        }
    }
}

/// How a judge reads a file that remembers others.
type Remembering = fn(&Filed) -> Option<Case>;

/// The edition of the file that came to this ledger first, or last, before this
/// one; this one's own, if none did. No file of a wrong length is taken.
fn edition_before(filed: &Filed, which: fn(&[Vec<u8>]) -> Option<&Vec<u8>>) -> Option<Edition> {
    let own = Edition::of_length(filed.file.len())?;
    which(&filed.before).map_or(Some(own), |file| Edition::of_length(file.len()))
}

/// Ways to remember an edition that are wrong, each with its name.
const REMEMBERING: [(&str, Remembering); 4] = [
    ("reads by the edition of the case before", |filed| {
        read_as(&filed.file, edition_before(filed, |files| files.last()))
    }),
    ("reads by the edition of the ledger's first case", |filed| {
        read_as(&filed.file, edition_before(filed, |files| files.first()))
    }),
    (
        "takes the edition of the ledger's first case only",
        |filed| {
            let first = edition_before(filed, |files| files.first());
            Case::read(&filed.file).filter(|case| Some(case.edition()) == first)
        },
    ),
    ("reads what a longer file before has left", |filed| {
        let own = Case::read(&filed.file)?;
        let longer = filed
            .before
            .last()
            .filter(|file| file.len() > filed.file.len());
        let Some(mut left) = longer.cloned() else {
            return Some(own);
        };
        left[..filed.file.len()].copy_from_slice(&filed.file);
        Case::read(&left)
    }),
];

#[test]
fn the_edition_runs_of_a_tape_find_judges_that_remember_an_edition() {
    for (seed, tape) in tapes() {
        let filed = filed_in_edition_runs(&tape.judged);
        for (name, read) in REMEMBERING {
            let is_found = filed.iter().any(|filed| filed.tells(read));
            assert!(is_found, "seed {seed}: a judge that {name}");
        }
    }
}

#[test]
fn the_edition_runs_of_a_tape_find_tables_that_are_kept_apart_by_edition() {
    for (seed, tape) in tapes() {
        for edition in Edition::ALL {
            let is_told = |filed: &Filed| {
                let Some(case) = Case::read(&filed.file) else {
                    return false;
                };
                let named = match filed.right_answer() {
                    Answer {
                        number: SPENT,
                        place,
                        ..
                    } => usize::from(place) - 1,
                    _ => return false,
                };
                let is_same = |file: &&Vec<u8>| file.len() == filed.file.len();
                let before = filed.before.iter().filter(is_same);
                let mut known = before.flat_map(|file| nullifiers_of(file));
                case.edition() == edition && !known.any(|row| row == case.nullifiers[named])
            };
            let is_found = filed_in_edition_runs(&tape.judged).iter().any(is_told);
            assert!(is_found, "seed {seed}: the {edition} edition's own table");
        }
    }
}

/// The first and the last byte of each carried field: ephemeral key, proof and
/// ciphertexts.
const CARRIED_ENDS: [(Edition, [usize; 8]); 2] = [
    (
        Edition::First,
        [176, 207, 304, 599, 600, 1_200, 1_201, 1_801],
    ),
    (
        Edition::Second,
        [176, 207, 304, 495, 496, 1_096, 1_097, 1_697],
    ),
];

#[test]
fn the_edition_runs_of_a_tape_find_judges_that_look_at_a_carried_byte() {
    for (seed, tape) in tapes() {
        let mut filed = filed_in_edition_runs(&tape.judged);
        filed.retain(|filed| filed.right_answer().is_pass());
        for (edition, ends) in CARRIED_ENDS {
            let accepted = filed
                .iter()
                .filter(|filed| filed.file.len() == edition.case_bytes());
            // A judge that refuses where the bit is set, or where it is not, refuses
            // one of these that are accepted.
            for (byte, bit) in ends
                .iter()
                .flat_map(|byte| (0..8).map(move |bit| (byte, bit)))
            {
                let has_bit = |filed: &Filed| filed.file[*byte] >> bit & 1 == 1;
                let with_bit = accepted.clone().filter(|filed| has_bit(filed)).count();
                let refused = [with_bit, accepted.clone().count() - with_bit];
                assert!(!refused.contains(&0), "seed {seed}: bit {bit} of {byte}");
            }
        }
    }
}

#[test]
fn the_edition_runs_of_a_tape_find_judges_that_carry_a_byte_too_much() {
    let beside = [
        (Edition::First, [175, 208, 303, 1_802]),
        (Edition::Second, [175, 208, 303, 1_698]),
    ];
    for (seed, tape) in tapes() {
        let filed = filed_in_edition_runs(&tape.judged);
        let accepted: Vec<&Filed> = filed
            .iter()
            .filter(|filed| filed.right_answer().is_pass())
            .collect();
        for (edition, bytes) in beside {
            for byte in bytes {
                // Such a judge takes one of these files for one that is accepted.
                let is_alike = |one: &&Filed, other: &Filed| {
                    let differs = |at: usize| one.file[at] != other.file[at];
                    one.file.len() == other.file.len()
                        && (0..one.file.len()).all(|at| differs(at) == (at == byte))
                };
                let is_found = filed.iter().any(|other| {
                    other.file.len() == edition.case_bytes()
                        && !other.right_answer().is_pass()
                        && accepted.iter().any(|one| is_alike(one, other))
                });
                assert!(
                    is_found,
                    "seed {seed}: byte {byte} of the {edition} edition"
                );
            }
        }
    }
}

#[test]
fn the_scenes_of_a_tape_find_fields_that_are_not_moved_as_well() {
    for (seed, tape) in tapes() {
        let filed = filed(&tape.judged, |run| run.starts_with("bench"));
        let (name, place) = WRONG_PLACES[0];
        for field in BEHIND_THE_PROOF {
            let read = |filed: &Filed| read_elsewhere(&filed.file, &[field], place);
            let is_found = filed.iter().any(|filed| filed.tells(read));
            assert!(is_found, "seed {seed}: {} {name}", field.0);
        }
    }
}

/// The files of each pair that a tape has in two orders.
fn pairs_in_two_orders(tape: &[u8]) -> Vec<[usize; 2]> {
    let mut is_order = false;
    let mut pairs = Vec::new();
    for window in before_depots(tape).windows(3) {
        let [(kind, body), (second, one), (third, other)] = window else {
            continue;
        };
        if *kind == b'N' {
            is_order = body.starts_with(b"order");
        }
        if is_order && [*kind, *second, *third] == *b"PCC" {
            pairs.push([one.len(), other.len()]);
        }
    }
    pairs
}

#[test]
fn a_long_tape_has_both_editions_by_the_dice_and_pairs_of_both_in_two_orders() {
    for seed in SEEDS {
        let tape = Tape::of(seed, 2_000);
        let cases = judged_cases(&tape.judged);
        let first = |(_, case): &&(Ledger, Case)| case.edition() == Edition::First;
        let of_first = cases.iter().filter(first).count();
        let is_even = 3 * of_first > cases.len() && 3 * of_first < 2 * cases.len();
        assert!(is_even, "seed {seed}: {of_first} of {}", cases.len());
        let pairs = pairs_in_two_orders(&tape.judged);
        for wanted in [[4_210, 4_106], [4_106, 4_210]] {
            let times = pairs.iter().filter(|pair| **pair == wanted).count();
            assert!(times > 1, "seed {seed}: {wanted:?} {times} times");
        }
    }
}

/// The runs for depots: what their cases and closings are answered.
const DEPOT_RUNS: [(&str, &[&str]); 39] = [
    ("depot-65534-has-room", &["case 0 0", "case 3 0"]),
    ("depot-room-in-a-longer-table", &["case 0 0", "case 3 0"]),
    ("depot-65536-has-none", &["case 3 0", "block 0 0"]),
    ("depot-65536-in-a-longer-table", &["case 3 0", "block 0 0"]),
    ("depot-65534-one-row-short", &["case 3 0", "block 0 0"]),
    ("depot-65534-one-byte-short", &["case 3 0", "block 0 0"]),
    ("depot-65536-in-65535-rows", &["case 2 0", "block 2 0"]),
    ("depot-65537-is-damage", &["case 2 0", "block 2 0"]),
    ("depot-65538-is-damage", &["case 2 0", "block 2 0"]),
    (
        "depot-2048-in-2050-rows",
        &["case 0 0", "case 3 0", "block 0 0"],
    ),
    ("depot-2050-in-2052-rows", &["block 0 0", "case 0 0"]),
    (
        "depot-1024-anchors-in-1026-rows",
        &["block 0 0", "block 0 0", "block 3 0"],
    ),
    ("depot-1025-anchors", &["case 0 0", "block 0 0"]),
    ("depot-4095-anchors", &["block 0 0", "block 3 0"]),
    (
        "depot-4095-anchors-in-a-longer-roll",
        &["block 0 0", "block 3 0"],
    ),
    ("depot-4095-anchors-one-byte-short", &["block 3 0"]),
    ("depot-4096-anchors", &["block 3 0", "case 0 0"]),
    ("depot-4096-anchors-in-a-longer-roll", &["block 3 0"]),
    (
        "depot-4096-anchors-in-4095-rows",
        &["block 2 0", "case 2 0"],
    ),
    ("depot-4097-anchors", &["block 2 0", "case 2 0"]),
    ("depot-anchor-in-roll-row-4095", &["case 0 0"]),
    ("depot-anchor-past-the-roll", &["case 6 0"]),
    ("depot-below-all-rows", &["case 0 0"]),
    ("depot-above-all-rows", &["case 0 0"]),
    (
        "depot-spent-in-row-0",
        &["case 8 1", "row 0", "case 8 2", "row 0"],
    ),
    ("depot-beside-row-0", &["case 0 0"]),
    (
        "depot-spent-in-row-32767",
        &["case 8 1", "row 32767", "case 8 2", "row 32767"],
    ),
    ("depot-beside-row-32767", &["case 0 0"]),
    (
        "depot-spent-in-row-32768",
        &["case 8 1", "row 32768", "case 8 2", "row 32768"],
    ),
    ("depot-beside-row-32768", &["case 0 0"]),
    (
        "depot-spent-in-row-65533",
        &["case 8 1", "row 65533", "case 8 2", "row 65533"],
    ),
    ("depot-beside-row-65533", &["case 0 0"]),
    ("depot-last-pair-equal", &["block 2 0"]),
    ("depot-last-pair-falls", &["block 2 0", "case 2 0"]),
    ("depot-middle-pair-falls", &["block 2 0"]),
    (
        "depot-pair-past-the-used-falls",
        &["block 0 0", "block 0 0"],
    ),
    ("depot-full-pair-0-falls", &["case 2 0", "block 2 0"]),
    ("depot-full-pair-65533-falls", &["case 2 0", "block 2 0"]),
    ("depot-full-pair-65534-falls", &["case 2 0", "block 2 0"]),
];

/// The lines of a run that are answers to cases and closings, rows among them.
fn answers_of<'a>(lines: &'a [String], run: &str) -> Vec<&'a str> {
    let is_answer = |line: &&str| {
        ["case ", "row ", "block "]
            .iter()
            .any(|w| line.starts_with(w))
    };
    lines_of(lines, run).filter(is_answer).collect()
}

#[test]
fn a_tape_of_600_entries_shows_the_answers_of_its_depot_runs() {
    for (seed, tape) in tapes() {
        for (run, expected) in DEPOT_RUNS {
            assert_eq!(answers_of(&tape.lines, run), expected, "seed {seed}: {run}");
        }
    }
}

#[test]
fn each_pair_of_a_short_table_is_walked_over() {
    for (seed, tape) in tapes() {
        for rows in [2, 4, 6, 8, 10, 12, 18, 20, 26] {
            let run = format!("walk-of-{rows}-rows");
            let mut expected = vec!["block 0 0"];
            for _ in 1..rows {
                expected.extend(["block 0 0", "block 2 0", "block 2 0", "block 2 0"]);
            }
            expected.push("block 0 0");
            assert_eq!(
                answers_of(&tape.lines, &run),
                expected,
                "seed {seed}: {run}"
            );
        }
    }
}

#[test]
fn each_row_of_a_short_table_falls_by_its_first_byte() {
    let mut expected = vec!["block 0 0"];
    expected.extend(["block 2 0"; 25]);
    expected.push("block 0 0");
    for (seed, tape) in tapes() {
        let answers = answers_of(&tape.lines, "walk-by-first-bytes");
        assert_eq!(answers, expected, "seed {seed}");
    }
}

#[test]
fn a_long_tape_has_a_look_at_more_rows_than_are_shown() {
    for (seed, tape) in long_tapes() {
        let lines: Vec<&str> = lines_of(&tape.lines, "more-rows-than-shown").collect();
        for (word, shown) in [("spent ", 2_048), ("anchor ", 1_024)] {
            let of_word = lines.iter().filter(|line| line.starts_with(word));
            assert_eq!(of_word.count(), shown, "seed {seed}: {word}");
        }
    }
}

#[test]
fn a_tape_of_600_entries_has_a_dozen_looks_at_long_tables_at_most() {
    for (seed, tape) in tapes() {
        let mut player = Player::new();
        let mut looks = 0;
        for (kind, body) in entries(&tape.judged) {
            looks += usize::from(kind == b'M' && player.ledger.table.len() > 100_000);
            // A look itself changes nothing.
            if kind != b'M' && player.play(kind, body).is_none() {
                break;
            }
        }
        assert!((6..=12).contains(&looks), "seed {seed}: {looks}");
    }
}

/// What is asked of a depot: a case or a closing.
struct Asked<'a> {
    ledger: &'a Ledger,
    /// The case, with what the rules say of it that do not look at the ledger's
    /// rows.
    case: Option<(Case, Answer)>,
}

impl Asked<'_> {
    fn new<'a>(ledger: &'a Ledger, case: Option<Case>) -> Asked<'a> {
        let judged = case.map(|case| {
            let mut rest = RULES
                .iter()
                .filter(|r| ![2, 3, 6, 8].contains(&r.answer.number));
            let refusal = rest.find(|rule| (rule.applies)(ledger, &case));
            let answer = refusal.map_or(Answer::PASSED, |rule| rule.answer);
            (case, answer)
        });
        Asked {
            ledger,
            case: judged,
        }
    }
}

/// A judge with limits and ways of its own, right or wrong.
#[derive(Clone, Copy)]
struct Depots {
    /// The table's limit, in damage and in room, and the roll's, in damage and in
    /// closing.
    limits: [usize; 4],
    /// Rows of so many bytes.
    lent: fn(usize) -> usize,
    /// How many rows are looked at for damage where so many are used, and whether
    /// they rise.
    walked: fn(usize) -> usize,
    rises: fn(&[Bytes32]) -> bool,
    /// In how many rows of the roll an anchor is looked for, and in how many of
    /// the table a nullifier.
    anchors: fn(usize) -> usize,
    spent: fn(usize) -> usize,
    /// The row that is named.
    named: fn(usize) -> usize,
}

const RIGHT_DEPOTS: Depots = Depots {
    limits: [65_536, 65_536, 4_096, 4_096],
    lent: |bytes| bytes / ROW_BYTES,
    walked: |used| used,
    rises: |rows| rise_where(rows, |_, _| true),
    anchors: |used| used,
    spent: |used| used,
    named: |row| row,
};

/// Whether those pairs of rows rise that are looked at, by their number and by how
/// many there are.
fn rise_where(rows: &[Bytes32], is_looked_at: impl Fn(usize, usize) -> bool) -> bool {
    let pairs = rows.len().saturating_sub(1);
    (0..pairs).all(|pair| !is_looked_at(pair, pairs) || rows[pair] < rows[pair + 1])
}

/// The first rows of a buffer, no more than it has.
fn first_rows(buffer: &[u8], rows: usize) -> &[Bytes32] {
    let (whole, _) = buffer.as_chunks::<ROW_BYTES>();
    &whole[..rows.min(whole.len())]
}

impl Depots {
    /// Rows that there is room for, by one of the limits.
    fn room(&self, buffer: &[u8], limit: usize) -> u64 {
        (self.lent)(buffer.len()).min(self.limits[limit]) as u64
    }

    fn is_damaged(&self, ledger: &Ledger) -> bool {
        let walked = (self.walked)(ledger.spent as usize);
        !ledger.spent.is_multiple_of(2)
            || ledger.spent > self.room(&ledger.table, 0)
            || u64::from(ledger.tree.count()) != ledger.spent
            || ledger.anchors == 0
            || ledger.anchors > self.room(&ledger.roll, 2)
            || ledger.pool > MAX_POOL
            || !(self.rises)(first_rows(&ledger.table, walked))
    }

    fn answer(&self, asked: &Asked) -> Answer {
        let ledger = asked.ledger;
        if self.is_damaged(ledger) {
            return Answer::new(2, 0);
        }
        match &asked.case {
            Some((case, rest)) => self.judge(ledger, case, *rest),
            None if ledger.anchors >= self.room(&ledger.roll, 3) => Answer::new(3, 0),
            None => Answer::PASSED,
        }
    }

    fn judge(&self, ledger: &Ledger, case: &Case, rest: Answer) -> Answer {
        if ledger.spent + 2 > self.room(&ledger.table, 1) {
            return Answer::new(3, 0);
        }
        let anchors = (self.anchors)(ledger.anchors as usize);
        if !first_rows(&ledger.roll, anchors).contains(&case.anchor) {
            return Answer::new(6, 0);
        }
        let rows = first_rows(&ledger.table, (self.spent)(ledger.spent as usize));
        for (nullifier, place) in case.nullifiers.iter().zip([1, 2]) {
            if let Ok(row) = rows.binary_search(nullifier) {
                return Answer::spent(place, Row((self.named)(row) as u64));
            }
        }
        rest
    }
}

/// A judge that has another limit in one place.
const fn limited(place: usize, limit: usize) -> Depots {
    let mut limits = RIGHT_DEPOTS.limits;
    limits[place] = limit;
    Depots {
        limits,
        ..RIGHT_DEPOTS
    }
}

/// Judges whose limits are wrong, each with its name.
const WRONG_LIMITS: [(&str, Depots); 20] = [
    ("has 2,048 in damage", limited(0, 2_048)),
    ("has 65,534 in damage", limited(0, 65_534)),
    ("has 65,535 in damage", limited(0, 65_535)),
    ("has 65,538 in damage", limited(0, 65_538)),
    ("has none for nullifiers in damage", limited(0, usize::MAX)),
    ("has 2,048 in room", limited(1, 2_048)),
    ("has 65,534 in room", limited(1, 65_534)),
    ("has 65,535 in room", limited(1, 65_535)),
    ("has 65,538 in room", limited(1, 65_538)),
    ("has none in room", limited(1, usize::MAX)),
    ("has 1,024 in damage", limited(2, 1_024)),
    ("has 4,095 in damage", limited(2, 4_095)),
    ("has 4,097 in damage", limited(2, 4_097)),
    ("has none for anchors in damage", limited(2, usize::MAX)),
    ("has 1,024 in closing", limited(3, 1_024)),
    ("has 4,095 in closing", limited(3, 4_095)),
    ("has 4,097 in closing", limited(3, 4_097)),
    ("has none in closing", limited(3, usize::MAX)),
    (
        "counts rows that are only begun",
        Depots {
            lent: |bytes| bytes.div_ceil(ROW_BYTES),
            ..RIGHT_DEPOTS
        },
    ),
    (
        "counts lent rows in 16 bits",
        Depots {
            lent: |bytes| (bytes / ROW_BYTES) & 0xffff,
            ..RIGHT_DEPOTS
        },
    ),
];

/// A judge that walks over so many of the used rows.
const fn walking(walked: fn(usize) -> usize) -> Depots {
    Depots {
        walked,
        ..RIGHT_DEPOTS
    }
}

/// A judge that takes rows to rise by another look at them.
const fn seeing(rises: fn(&[Bytes32]) -> bool) -> Depots {
    Depots {
        rises,
        ..RIGHT_DEPOTS
    }
}

/// Whether rows rise but for one pair of each eight.
fn leave_out<const PAIR: usize>(rows: &[Bytes32]) -> bool {
    rise_where(rows, |pair, _| pair % 8 != PAIR)
}

/// Judges that look for damage in a wrong way, each with its name.
const WRONG_WALKS: [(&str, Depots); 18] = [
    ("counts used rows in 16 bits", walking(|used| used & 0xffff)),
    ("walks over 2,048 rows", walking(|used| used.min(2_048))),
    ("walks over 32,768 rows", walking(|used| used.min(32_768))),
    (
        "walks over all rows but the last",
        walking(|used| used.max(1) - 1),
    ),
    ("walks one row too far", walking(|used| used + 1)),
    (
        "leaves out the first pair of a turn",
        seeing(leave_out::<0>),
    ),
    (
        "leaves out the second pair of a turn",
        seeing(leave_out::<1>),
    ),
    (
        "leaves out the third pair of a turn",
        seeing(leave_out::<2>),
    ),
    (
        "leaves out the fourth pair of a turn",
        seeing(leave_out::<3>),
    ),
    (
        "leaves out the fifth pair of a turn",
        seeing(leave_out::<4>),
    ),
    (
        "leaves out the sixth pair of a turn",
        seeing(leave_out::<5>),
    ),
    (
        "leaves out the seventh pair of a turn",
        seeing(leave_out::<6>),
    ),
    (
        "leaves out the eighth pair of a turn",
        seeing(leave_out::<7>),
    ),
    (
        "stops at the last whole turn",
        seeing(|rows| rise_where(rows, |pair, pairs| pair < pairs / 8 * 8)),
    ),
    (
        "looks only at what follows the whole turns",
        seeing(|rows| rise_where(rows, |pair, pairs| pair >= pairs / 8 * 8)),
    ),
    (
        "takes equal first words for rising",
        seeing(|rows| rows.windows(2).all(|pair| pair[0][..8] <= pair[1][..8])),
    ),
    (
        "looks at rows without their first bytes",
        seeing(|rows| rows.windows(2).all(|pair| pair[0][1..] < pair[1][1..])),
    ),
    (
        "takes equal first words for falling",
        seeing(|rows| rise_by(rows, u64_of)),
    ),
];

/// The number that a row begins with.
fn u64_of(row: &Bytes32) -> u64 {
    row[..8]
        .iter()
        .fold(0, |number, byte| number << 8 | u64::from(*byte))
}

/// Judges that look for anchors or nullifiers in the wrong rows, or name the wrong
/// one, each with its name.
const WRONG_LOOKS: [(&str, Depots); 9] = [
    (
        "looks at 1,024 anchors",
        looking(|used| used.min(1_024), |used| used),
    ),
    (
        "leaves out the last anchor",
        looking(|used| used - 1, |used| used),
    ),
    (
        "takes an anchor past the roll",
        looking(|used| used + 1, |used| used),
    ),
    (
        "looks for a nullifier in 2,048 rows",
        looking(|used| used, |used| used.min(2_048)),
    ),
    (
        "looks for a nullifier in 32,768 rows",
        looking(|used| used, |used| used.min(32_768)),
    ),
    (
        "looks for a nullifier in all rows but the last",
        looking(|used| used, |used| used.max(1) - 1),
    ),
    ("names a row of 11 bits", naming(|row| row & 0x7ff)),
    ("names a row of 15 bits", naming(|row| row & 0x7fff)),
    ("names a signed row", naming(|row| row as i16 as usize)),
];

/// A judge that looks for anchors and for nullifiers in so many of the used rows.
const fn looking(anchors: fn(usize) -> usize, spent: fn(usize) -> usize) -> Depots {
    Depots {
        anchors,
        spent,
        ..RIGHT_DEPOTS
    }
}

/// A judge that names rows so.
const fn naming(named: fn(usize) -> usize) -> Depots {
    Depots {
        named,
        ..RIGHT_DEPOTS
    }
}

/// Asks judges about each case and closing of a tape's runs for depots, and gives
/// back which of them answered otherwise than the tape.
fn depots_that_differ(tape: &[u8], judges: &[Depots]) -> Vec<bool> {
    let mut player = Player::new();
    let mut differ = vec![false; judges.len()];
    let skipped = before_depots(tape).len();
    for (index, (kind, body)) in entries(tape).into_iter().enumerate() {
        if index > skipped && b"BC".contains(&kind) {
            let case = (kind == b'C').then(|| Case::read(body).expect("a right length"));
            let mut after = player.ledger.clone();
            let right = match case {
                Some(_) => judge(&mut after, body),
                None => after.close_block(),
            };
            let asked = Asked::new(&player.ledger, case);
            for (judge, differs) in judges.iter().zip(&mut differ) {
                *differs |= judge.answer(&asked) != right;
            }
            player.ledger = after;
        } else if kind != b'M' && player.play(kind, body).is_none() {
            break;
        }
    }
    differ
}

#[test]
fn the_depot_runs_of_a_tape_find_wrong_limits_walks_and_looks() {
    let wrong: Vec<(&str, Depots)> = [&WRONG_LIMITS[..], &WRONG_WALKS, &WRONG_LOOKS].concat();
    let mut judges: Vec<Depots> = wrong.iter().map(|(_, judge)| *judge).collect();
    judges.push(RIGHT_DEPOTS);
    for (seed, tape) in tapes() {
        let mut differ = depots_that_differ(&tape.judged, &judges);
        assert_eq!(differ.pop(), Some(false), "seed {seed}: the right one");
        for ((name, _), differs) in wrong.iter().zip(differ) {
            assert!(differs, "seed {seed}: a judge that {name}");
        }
    }
}

/// A case that brings a tree to 2^level leaves, as a run has it. The leaves before
/// are the rows of the table.
struct Carry {
    record: Record,
    leaves: Vec<Bytes32>,
    /// The leaves of this case, and of others that may follow.
    added: Vec<Bytes32>,
    /// The roots that the ledger's lines have.
    roots: Vec<String>,
}

impl Carry {
    /// Plays the run, which starts with a ledger of its own.
    fn play(tape: &[u8], run: &str) -> Carry {
        let mut player = Player::new();
        let mut carry = Carry {
            record: Record::EMPTY,
            leaves: Vec::new(),
            added: Vec::new(),
            roots: Vec::new(),
        };
        for (kind, body) in entries_of(tape, run) {
            // A broken entry may follow the last run.
            let Some(lines) = player.play(kind, body) else {
                break;
            };
            match kind {
                b'T' => carry.leaves = player.ledger.spent_rows().to_vec(),
                b'K' => carry.record = player.ledger.tree.record().clone(),
                b'C' => carry.added.extend(commitments_of(body)),
                b'L' => carry.roots.extend(root_in(&lines[0])),
                _ => (),
            }
        }
        carry
    }

    /// The root of the whole tree over the leaves once so many are added.
    fn root(&self, added: usize) -> String {
        let leaves = [&self.leaves[..], &self.added[..added]].concat();
        hex(&root_of_leaves(&leaves))
    }
}

fn commitments_of(file: &[u8]) -> [Bytes32; 2] {
    Case::read(file).expect("a case").commitments
}

/// The root in a ledger's line.
fn root_in(line: &str) -> Option<String> {
    line.split_once(" root ").map(|(_, root)| root.to_owned())
}

/// The carry runs of a tape, each with its level.
fn carries(tape: &[u8]) -> impl Iterator<Item = (usize, Carry)> + '_ {
    let play = |level| Carry::play(tape, &format!("carry-to-2-to-the-{level}"));
    (1..=16).map(move |level| (level, play(level)))
}

#[test]
fn the_carry_runs_of_a_tape_show_the_root_of_the_whole_tree() {
    for (seed, tape) in tapes() {
        for (level, carry) in carries(&tape.judged) {
            assert_eq!(carry.leaves.len() + 2, 1 << level);
            let planted = hex(&carry.record.root());
            assert_eq!(planted, carry.root(0), "seed {seed}: before {level}");
            let cases = if [2, 15].contains(&level) { 2 } else { 1 };
            let roots: Vec<String> = (1..=cases).map(|case| carry.root(2 * case)).collect();
            assert_eq!(carry.roots, roots, "seed {seed}: carry to {level}");
            let answers = answers_of(&tape.lines, &format!("carry-to-2-to-the-{level}"));
            let expected = ["case 0 0", "block 0 0", "case 0 0"];
            assert_eq!(answers, expected[..1 + cases], "seed {seed}: {level}");
        }
    }
}

/// The node that a wrong tree puts where a carry ends, by the record before the
/// last leaf, that leaf, and the level.
type WrongCarry = fn(&Record, &Bytes32, usize) -> Bytes32;

/// Carries that are wrong, each with its name.
const WRONG_CARRIES: [(&str, WrongCarry); 3] = [
    ("is dropped", |record, _, level| record.nodes[level]),
    ("stops one level short", |record, leaf, level| {
        carried(record, leaf, level - 1)
    }),
    ("has the last two sides exchanged", |record, leaf, level| {
        parent(&carried(record, leaf, level - 1), &record.nodes[level - 1])
    }),
];

/// What a leaf becomes on its way to a level.
fn carried(record: &Record, leaf: &Bytes32, level: usize) -> Bytes32 {
    let waiting = record.nodes[..level].iter();
    waiting.fold(*leaf, |node, waiting| parent(waiting, &node))
}

#[test]
fn the_carry_runs_of_a_tape_find_each_carry_that_is_wrong() {
    for (seed, tape) in tapes() {
        for (level, carry) in carries(&tape.judged) {
            let before = carry.record.clone().with_leaf(&carry.added[0]);
            let root_with = |node: Bytes32| {
                let mut after = before.clone();
                after.nodes[level] = node;
                after.count += 1;
                hex(&after.root())
            };
            let last = &carry.added[1];
            let right = root_with(carried(&before, last, level));
            assert_eq!(right, carry.roots[0], "seed {seed}: {level}");
            for (name, wrong) in WRONG_CARRIES {
                let root = root_with(wrong(&before, last, level));
                assert_ne!(root, right, "seed {seed}: to {level} a carry that {name}");
            }
        }
    }
}

#[test]
fn a_long_tape_takes_the_pool_past_both_bounds_and_mostly_leaves_it_within() {
    for seed in SEEDS {
        let judged = judged_cases(&Tape::of(seed, 2_000).judged);
        let (mut below, mut above, mut passed) = (0, 0, 0);
        for (ledger, case) in &judged {
            match first_refusal(ledger, case) {
                None => passed += 1,
                Some(refusal) if refusal.number == 17 => {
                    below += usize::from(ledger.pool_after(case) < 0);
                    above += usize::from(ledger.pool_after(case) > 0);
                }
                Some(_) => (),
            }
        }
        assert!(below > 3 && above > 3, "seed {seed}: {below} and {above}");
        assert!(4 * passed > judged.len(), "seed {seed}: {passed} accepted");
    }
}

#[test]
fn what_is_done_on_a_planted_ledger_is_followed_by_a_look_at_its_memory() {
    for (seed, tape) in tapes() {
        let mut is_planted = false;
        let mut is_due = false;
        // A broken entry may follow the sound ones.
        for (kind, _) in entries(&tape.bytes).into_iter().take(600) {
            match kind {
                b'O' | b'P' | b'K' => {
                    assert!(!is_due, "seed {seed}: left without a look");
                    is_planted = kind != b'O';
                    is_due = is_planted;
                }
                b'C' | b'D' | b'B' | b'T' | b'A' => is_due = is_planted,
                b'M' => is_due = false,
                _ => (),
            }
        }
        for purpose in ["memory after an acceptance", "memory after a refusal"] {
            assert!(tape.coverage.times_made_for(purpose) > 0, "{purpose}");
        }
    }
}

/// The bytes of a buffer past its used rows.
fn spare(buffer: &[u8], used: u64) -> &[u8] {
    let rows = used.min((buffer.len() / ROW_BYTES) as u64) as usize;
    &buffer[rows * ROW_BYTES..]
}

#[test]
fn planted_ledgers_have_spare_bytes_that_are_not_zero() {
    for (seed, tape) in tapes() {
        let mut ragged = 0;
        for (kind, body) in entries(&tape.judged).into_iter().take(600) {
            if kind != b'P' {
                continue;
            }
            let ledger = read_plant(body).expect("a sound entry");
            for (buffer, used) in [
                (&ledger.table, ledger.spent),
                (&ledger.roll, ledger.anchors),
            ] {
                let spare = spare(buffer, used);
                let is_marked = spare.iter().any(|byte| *byte != 0);
                assert!(is_marked || spare.is_empty(), "seed {seed}");
                ragged += usize::from(buffer.len() % ROW_BYTES != 0);
            }
        }
        assert!(
            ragged > 100,
            "seed {seed}: {ragged} buffers end inside a row"
        );
    }
}

/// The gates at which a tape has a pull that is no number.
fn gates_without_number(tape: &[u8]) -> Vec<Gate> {
    let mut gates = Vec::new();
    for (kind, body) in entries(tape) {
        let mut reader = Reader::new(body);
        let numbers = (reader.f64(), reader.f64());
        if let (b'S', (Some(gain), Some(offset))) = (kind, numbers) {
            let seal = reader.run(SEAL_BYTES).and_then(Seal::read);
            let calibration = Calibration { gain, offset };
            gates.extend(
                seal.filter(|seal| calibration.pull(seal.raw).is_nan())
                    .map(|seal| seal.gate),
            );
        }
    }
    gates
}

#[test]
fn a_tape_has_a_pull_that_is_no_number_at_every_sound_gate() {
    for (seed, tape) in tapes() {
        let gates = gates_without_number(&tape.judged);
        for gate in [Gate::None, Gate::AtLeast(-1.0), Gate::Between(-1.0, 1.0)] {
            assert!(gates.contains(&gate), "seed {seed}: {gate:?}");
        }
    }
}

#[test]
fn the_stored_tape_is_that_of_seed_1() {
    let stored = concat!(env!("CARGO_MANIFEST_DIR"), "/../../crates/replay/");
    let tape = make_tape(1, 600);
    let lines: String = tape.lines.iter().map(|line| format!("{line}\n")).collect();
    let read = |name: &str| std::fs::read(format!("{stored}{name}")).expect("the stored tape");
    assert!(read("stdin") == tape.bytes, "make the stored tape anew");
    assert!(read("stdout") == lines.as_bytes(), "make its lines anew");
}

#[test]
fn a_tape_has_as_many_entries_as_asked() {
    let mut broken = 0;
    for seed in 0..40 {
        let tape = make_tape(seed, 30);
        let is_broken = tape.lines.last().is_some_and(|line| line == "tape 50 0");
        let made = entries(&tape.bytes);
        let count = made.iter().filter(|(kind, _)| *kind != b'N').count();
        if is_broken {
            broken += 1;
            assert!((30..=32).contains(&count), "seed {seed}");
        } else {
            assert_eq!(count, 30, "seed {seed}");
        }
    }
    assert!((1..40).contains(&broken), "{broken} broken tapes");
}

#[test]
fn a_tape_prints_its_lines_and_is_the_same_each_time() {
    let tape = make_tape(9, 200);
    assert_eq!(play(&tape.bytes), tape.lines);
    let again = make_tape(9, 200);
    assert_eq!(again.bytes, tape.bytes);
    assert_eq!(again.lines, tape.lines);
    assert_ne!(make_tape(10, 200).bytes, tape.bytes);
}

#[test]
fn no_entries_are_no_lines_but_for_a_broken_end() {
    for seed in 0..10 {
        let lines = make_tape(seed, 0).lines;
        assert!(lines.is_empty() || lines == ["tape 50 0"], "seed {seed}");
    }
}
