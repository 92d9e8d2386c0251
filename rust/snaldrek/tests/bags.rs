//! Bags of good and bent cases, with every kind of seal, sound and with a
//! broken layout: both judges give the same answers and leave the same bytes.

mod common;

use common::{assert_alike, assert_answer, entries, same_ledger};
use second::answer::Answer as Plain;
use second::bag::{read_bag, write_bag};
use second::judge::judge;
use second::ledger::Ledger as PlainLedger;
use second::maker::make_tape;
use second::random::Random;
use second::seal::{judge_seal, Calibration as PlainCalibration};
use second::tape::{judged_file, Player};
use snaldrek::{calls, Calibration, LEDGER_BYTES};

/// The second judge's answers of a bag on a ledger: the bag's own, and its
/// cases'.
fn plain_scan(ledger: &mut PlainLedger, bytes: &[u8], by: Calibration) -> (Plain, Vec<Plain>) {
    let Some(bag) = read_bag(bytes) else {
        return (Plain::new(20, 0), Vec::new());
    };
    let calibration = PlainCalibration {
        gain: by.gain,
        offset: by.offset,
    };
    match judge_seal(calibration, bag.seal) {
        Err(refusal) => (refusal, Vec::new()),
        Ok(_) => {
            let cases = bag.cases.iter().map(|case| judge(ledger, case)).collect();
            (Plain::PASSED, cases)
        }
    }
}

/// Scans a bag on both, and holds all that they say and leave to each other.
fn scan_both(ledger: &PlainLedger, bag: &[u8], by: Calibration) -> Plain {
    let (mut ours, mut theirs) = (same_ledger(ledger), ledger.clone());
    let (expected, cases) = plain_scan(&mut theirs, bag, by);
    match ours.scan_bag(bag, by) {
        Err(refusal) => assert_answer(Err(refusal), expected, "a bag"),
        Ok(answers) => {
            assert_eq!(expected, Plain::PASSED, "a bag");
            assert_eq!(answers.len(), cases.len(), "its cases");
            for (answer, case) in answers.into_iter().zip(&cases) {
                assert_answer(answer, *case, "a case of a bag");
            }
        }
    }
    assert_alike(&ours, &theirs, "after a bag");
    hold_report(ledger, bag, by, expected, &cases);
    expected
}

/// The report's very bytes: as FORMATS says, or untouched.
fn hold_report(
    ledger: &PlainLedger,
    bag: &[u8],
    by: Calibration,
    expected: Plain,
    cases: &[Plain],
) {
    let (mut bytes, mut table) = (common::ledger_bytes(ledger), ledger.table.clone());
    let mut report = [0xa5; 32];
    let code = calls::bag(
        bag,
        [by.gain, by.offset],
        &mut bytes,
        &mut table,
        &ledger.roll,
        &mut report,
    );
    assert_eq!(code, common::code(expected));
    let mut written = [0; 32];
    written[0] = cases.len() as u8;
    for (index, bytes) in written[4..].chunks_exact_mut(4).enumerate() {
        // An answer that was not given must not look like a pass.
        let code = cases.get(index).map_or(255, |case| common::code(*case));
        bytes.copy_from_slice(&code.to_le_bytes());
    }
    assert_eq!(
        report,
        if expected.is_pass() {
            written
        } else {
            [0xa5; 32]
        },
        "the report"
    );
}

/// A bag in which something of the layout is changed, or nothing.
fn bend_layout(random: &mut Random, bag: &mut Vec<u8>) {
    let contents = 2 + 9 * usize::from(bag[0]);
    match random.below(8) {
        0 => bag.push(0),
        1 => bag.truncate(random.below(bag.len())),
        2 => random.flip_bit(&mut bag[..2]),
        3 => random.flip_bit(&mut bag[2..contents]),
        4 => random.flip_bit(&mut bag[contents..contents + 9]),
        5 => bag.resize(65_536 + random.below(2), 0),
        _ => (),
    }
}

/// The seals of a tape, each with its calibration.
fn seals(tape: &[(u8, Vec<u8>)]) -> Vec<(Calibration, Vec<u8>)> {
    let float = |body: &[u8], at: usize| f64::from_le_bytes(body[at..at + 8].try_into().unwrap());
    tape.iter()
        .filter(|(kind, _)| *kind == b'S')
        .map(|(_, body)| {
            let by = Calibration {
                gain: float(body, 0),
                offset: float(body, 8),
            };
            (by, body[16..].to_vec())
        })
        .collect()
}

/// Puts each run of cases on a tape into bags, on the ledger before the run. What
/// the desk wrote is a case, too.
fn bags_of_tape(seed: u64) -> usize {
    let made = make_tape(seed, 700);
    let tape: Vec<(u8, Vec<u8>)> = entries(&made.bytes)
        .into_iter()
        .take(700)
        .map(|(kind, body)| match judged_file(kind, body) {
            Some(file) => (b'C', file.into_owned()),
            None => (kind, body.to_vec()),
        })
        .collect();
    let seals = seals(&tape);
    let mut random = Random::new(seed);
    let mut player = Player::new();
    let mut judged = 0;
    for (index, (kind, body)) in tape.iter().enumerate() {
        if *kind == b'C' {
            let most = random.below(8);
            let run = tape[index..]
                .iter()
                .take(most)
                .take_while(|(kind, _)| *kind == b'C');
            let cases: Vec<&[u8]> = run.map(|(_, body)| &body[..]).collect();
            judged += bags_of_cases(&mut random, &player.ledger, &cases, &seals);
        }
        player.play(*kind, body).expect("a sound entry");
    }
    judged
}

/// The cases in one bag that passes, and in one with a random seal and layout.
fn bags_of_cases(
    random: &mut Random,
    ledger: &PlainLedger,
    cases: &[&[u8]],
    seals: &[(Calibration, Vec<u8>)],
) -> usize {
    let open_gate = [0; 25];
    scan_both(ledger, &write_bag(&open_gate, cases), Calibration::PLAIN);
    let (by, seal) = random.pick(seals);
    let mut bag = write_bag(seal, cases);
    bend_layout(random, &mut bag);
    scan_both(ledger, &bag, *by);
    2
}

#[test]
fn bags_are_alike() {
    let bags: usize = (4_000..4_002).map(bags_of_tape).sum();
    println!("{bags} bags scanned by both");
    assert!(bags > 500, "only {bags} bags");
}

#[test]
fn noise_is_no_bag() {
    let mut random = Random::new(5);
    let (ledger, _) = PlainLedger::open(vec![0; 128], vec![0; 64]);
    for _ in 0..500 {
        let mut bag = vec![0; random.below(120)];
        random.fill(&mut bag);
        if let Some(first) = bag.first_mut() {
            *first %= 10;
        }
        scan_both(&ledger, &bag, Calibration::PLAIN);
    }
}

/// A bag's own answer leaves every byte, on a damaged ledger too.
#[test]
fn a_refused_bag_leaves_a_damaged_ledger() {
    let damaged = PlainLedger::zeroed(vec![3; 64], vec![4; 64]);
    assert_eq!(common::ledger_bytes(&damaged), [0; LEDGER_BYTES]);
    let case = [0; 4_210];
    let bag = write_bag(&[0; 25], &[&case[..]; 7]);
    assert_eq!(scan_both(&damaged, &bag, Calibration::PLAIN), Plain::PASSED);
    assert_eq!(
        scan_both(&damaged, &bag[1..], Calibration::PLAIN),
        Plain::new(20, 0)
    );
}
