//! Every row of the table of refusals has its variant, and the variant its
//! words.

use snaldrek::{Pair, Refusal, TableRow};

/// The rows of docs/REFUSALS.md: number, place, words. Only programs play
/// tapes, so 50 is left out.
fn rows() -> Vec<(u32, u32, &'static str)> {
    let table = include_str!("../REFUSALS.md");
    let rows = table.lines().filter_map(|line| {
        let mut cells = line.strip_prefix("| ")?.strip_suffix(" |")?.split(" | ");
        let number = cells.next()?.parse().ok()?;
        Some((number, cells.next()?.parse().ok()?, cells.next()?))
    });
    rows.filter(|(number, _, _)| *number != 0 && *number != 50)
        .collect()
}

#[test]
fn the_library_has_this_crates_version() {
    let number = |text: &str| text.parse::<u32>().expect("a number");
    let numbers = env!("CARGO_PKG_VERSION").split('.').map(number);
    let version = numbers.fold(0, |so_far, number| so_far * 256 + number);
    assert_eq!(snaldrek::calls::version(), version);
}

#[test]
fn debugging_prints_no_memory() {
    let ledger = snaldrek::Ledger::open(65_536, 4_096).expect("rows for anchors");
    assert_eq!(
        format!("{ledger:?}"),
        "Ledger { spent: 0, anchors: 1, leaves: 0, pool: 0, .. }"
    );
    let list = snaldrek::DayList::with_rows(9);
    assert_eq!(format!("{list:?}"), "DayList { rows: 9, .. }");
}

#[test]
fn each_row_has_its_variant_and_words() {
    let rows = rows();
    assert_eq!(rows.len(), 41);
    for (number, place, words) in rows {
        let code = number + 256 * place;
        let refusal = Refusal::from_code(code).expect("a refusal");
        assert!(
            !matches!(refusal, Refusal::Unknown(_)),
            "{number} {place} has no variant"
        );
        assert_eq!(
            (u32::from(refusal.number()), u32::from(refusal.place())),
            (number, place)
        );
        assert_eq!(Refusal::code_of(Err(refusal)), code);
        assert!(refusal.to_string().starts_with(words), "{refusal}");
    }
}

#[test]
fn a_spent_nullifier_tells_its_row() {
    for row in [0, 1, 3, 255, 256, 2_047, 65_533, 65_535] {
        for (which, place, words) in [(Pair::First, 1, "first"), (Pair::Second, 2, "second")] {
            let refusal = Refusal::AlreadySpent(which, TableRow::new(row));
            let code = 8 + 256 * u32::from(place) + 65_536 * u32::from(row);
            assert_eq!(Refusal::from_code(code), Some(refusal));
            assert_eq!(Refusal::code_of(Err(refusal)), code);
            assert_eq!((refusal.number(), refusal.place()), (8, place));
            assert_eq!(refusal.row().map(TableRow::index), Some(row.into()));
            assert_eq!(
                refusal.to_string(),
                format!(
                    "the {words} nullifier is already spent: it stands in row {row} of the table"
                )
            );
        }
    }
}

/// No row of docs/REFUSALS.md, or a row of the nullifier table with another
/// number than 8.
#[test]
fn what_has_no_row_is_still_a_refusal() {
    let known: Vec<u32> = rows()
        .iter()
        .map(|(number, place, _)| number + 256 * place)
        .collect();
    let others = known.iter().filter(|code| *code % 256 != 8);
    let with_a_row = others.map(|code| code + 65_536);
    let more = [1 << 16, 1 << 24 | 8, 1 << 16 | 0x308, u32::MAX];
    for code in (1..0x1_0000).chain(more).chain(with_a_row) {
        let refusal = Refusal::from_code(code).expect("only 0 is a yes");
        assert_eq!(
            matches!(refusal, Refusal::Unknown(_)),
            !known.contains(&code),
            "{code:#x}"
        );
        assert_eq!(Refusal::code_of(Err(refusal)), code);
        assert_eq!(refusal.row().is_some(), matches!(code, 0x108 | 0x208));
    }
    assert_eq!(Refusal::answer(0), Ok(()));
}
