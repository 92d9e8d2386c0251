//! A lent buffer of the wrong length is refused with 51 before anything else
//! is looked at, and every byte stays.

use snaldrek::{calls, Edition, Ledger, Refusal, LEDGER_BYTES, MAX_CASE_BYTES};

const WRONG_LEDGERS: [usize; 6] = [0, 1, 987, 989, 1_976, 4_096];
const WRONG_32: [usize; 5] = [0, 1, 31, 33, 64];

fn code(place: u32) -> u32 {
    51 + 256 * place
}

/// Buffers filled with a byte, and what is left of it.
fn filled(length: usize) -> Vec<u8> {
    vec![0x5a; length]
}

fn assert_untouched(buffers: &[&[u8]]) {
    assert!(buffers
        .iter()
        .all(|buffer| buffer.iter().all(|byte| *byte == 0x5a)));
}

#[test]
fn a_ledger_of_another_length_is_refused_by_every_call() {
    for length in WRONG_LEDGERS {
        for (rows, file_length) in [(0, 0), (8, 4_210), (8, 4_209), (8, 4_106), (8, 4_105)] {
            let (mut ledger, file) = (filled(length), filled(file_length));
            let (mut table, mut roll) = (filled(32 * rows), filled(32 * rows));
            let (mut root, mut report) = (filled(32), filled(32));
            assert_eq!(calls::open(&mut ledger, &mut roll), code(1));
            assert_eq!(calls::judge(&file, &mut ledger, &mut table, &roll), code(1));
            assert_eq!(calls::close(&mut ledger, &table, &mut roll), code(1));
            assert_eq!(calls::root(&ledger, &mut root), code(1));
            let answer = calls::bag(
                &file,
                [1.0, 0.0],
                &mut ledger,
                &mut table,
                &roll,
                &mut report,
            );
            assert_eq!(answer, code(1));
            assert_untouched(&[&ledger, &table, &roll, &root, &report]);
        }
    }
}

#[test]
fn a_root_of_another_length_is_refused() {
    for length in WRONG_32 {
        let mut root = filled(length);
        assert_eq!(calls::root(&[0; LEDGER_BYTES], &mut root), code(2));
        assert_eq!(
            calls::root(&[0; 12], &mut root),
            code(1),
            "the ledger's length is asked first"
        );
        assert_untouched(&[&root]);
    }
}

#[test]
fn a_digest_of_another_length_is_refused() {
    for length in WRONG_32 {
        let mut digest = filled(length);
        assert_eq!(calls::hash(b"abc", &mut digest), code(6));
        assert_untouched(&[&digest]);
    }
}

/// The standard's own example of one block.
#[test]
fn a_digest_is_the_published_one() {
    let mut digest = [0; 32];
    assert_eq!(calls::hash(b"abc", &mut digest), 0);
    let hex: String = digest.iter().map(|byte| format!("{byte:02x}")).collect();
    assert_eq!(
        hex,
        "ba7816bf8f01cfea414140de5dae2223b00361a396177a9cb410ff61f20015ad"
    );
}

#[test]
fn a_report_of_another_length_is_refused() {
    for length in WRONG_32 {
        let (mut ledger, mut table, roll) = (filled(LEDGER_BYTES), filled(64), filled(64));
        let mut report = filled(length);
        for bag in [&[][..], &[1, 0, 1, 11, 0, 0, 0, 25, 0, 0, 0][..]] {
            let answer = calls::bag(bag, [1.0, 0.0], &mut ledger, &mut table, &roll, &mut report);
            assert_eq!(answer, code(3));
        }
        let answer = calls::bag(
            &[],
            [1.0, 0.0],
            &mut ledger[1..],
            &mut table,
            &roll,
            &mut report,
        );
        assert_eq!(answer, code(1), "the ledger's length is asked first");
        assert_untouched(&[&ledger, &table, &roll, &report]);
    }
}

#[test]
fn a_tally_of_another_length_is_refused() {
    for length in [0, 1, 11, 13, 24] {
        for answer in [0, 1, 264] {
            let mut tally = vec![0xff; length];
            assert_eq!(calls::tally(&mut tally, answer), code(4));
            assert!(tally.iter().all(|byte| *byte == 0xff));
        }
    }
}

#[test]
fn lengths_that_may_be_anything_are_never_refused_as_wrong() {
    for rows in [0, 1, 31, 32, 33, 65, 65_536 * 32 + 31, 70_000 * 32] {
        let mut ledger = filled(LEDGER_BYTES);
        let (mut table, mut roll) = (filled(rows), filled(rows));
        let opened = calls::open(&mut ledger, &mut roll);
        assert_eq!(opened, u32::from(rows < 32));
        assert_eq!(calls::judge(&[], &mut ledger, &mut table, &roll), 1);
        let closed = calls::close(&mut ledger, &table, &mut roll);
        assert_eq!(
            closed,
            if rows < 32 {
                2
            } else {
                u32::from(rows < 64) * 3
            }
        );
    }
}

/// Of these bytes every file that is a case has two public values, and no other
/// is looked at.
#[test]
fn a_case_has_one_of_two_lengths() {
    let mut ledger = Ledger::open(2, 1).expect("a row for an anchor");
    for length in (0..=4_500).chain([8_212, 8_420, 65_536, 65_536 + 4_106, 65_536 + 4_210]) {
        let (file, before) = (filled(length), ledger.clone());
        let (edition, refusal) = match length {
            4_106 => (Some(Edition::Second), Refusal::BothPublicValues),
            4_210 => (Some(Edition::First), Refusal::BothPublicValues),
            _ => (None, Refusal::WrongLength),
        };
        assert_eq!(ledger.judge(&file), Err(refusal), "{length} bytes");
        assert_eq!(Edition::of_case(&file), edition, "{length} bytes");
        assert!(ledger == before, "a refusal changes no byte");
    }
}

#[test]
fn an_edition_says_how_long_its_files_and_proofs_are() {
    let lengths = |edition: Edition| (edition.case_bytes(), edition.proof_bytes());
    assert_eq!(lengths(Edition::First), (4_210, 296));
    assert_eq!(lengths(Edition::Second), (4_106, 192));
    assert_eq!(MAX_CASE_BYTES, 4_210);
}

#[test]
fn a_ledger_takes_no_more_memory_than_it_can_use() {
    let ledger = Ledger::open(65_537, usize::MAX).expect("rows for anchors");
    let (_, table, roll) = ledger.parts();
    assert_eq!([table.len(), roll.len()], [65_536 * 32, 4_096 * 32]);
}
