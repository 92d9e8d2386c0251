//! The tally and the day list against plain counts.

use snaldrek::{calls, Answer, DayAnswer, DayList, DayRow, Pair, Refusal, TableRow, Tally};

/// The second nullifier spent, in this row of the table.
fn spent_in(row: u16) -> Answer {
    Err(Refusal::AlreadySpent(Pair::Second, TableRow::new(row)))
}

/// A tally as three numbers.
fn counts(tally: &Tally) -> [u32; 3] {
    [tally.seen(), tally.passed(), tally.refused()]
}

fn tally_of(counts: [u32; 3]) -> Tally {
    let bytes: Vec<u8> = counts
        .iter()
        .flat_map(|count| count.to_le_bytes())
        .collect();
    Tally::from_bytes(bytes.try_into().expect("twelve bytes"))
}

/// What the rules say of one answer more.
fn counted([seen, passed, refused]: [u32; 3], answer: Answer) -> Option<[u32; 3]> {
    let seen = seen.checked_add(1)?;
    match answer {
        Ok(()) => Some([seen, passed.checked_add(1)?, refused]),
        Err(_) => Some([seen, passed, refused.checked_add(1)?]),
    }
}

#[test]
fn a_tally_counts_as_the_rules_say() {
    let near = [0, 1, 7, u32::MAX - 1, u32::MAX];
    let answers = [Ok(()), spent_in(7), Err(Refusal::NoFreeRow)];
    for turn in 0..5 * 5 * 5 * 3 {
        let before = [near[turn % 5], near[turn / 5 % 5], near[turn / 25 % 5]];
        let answer = answers[turn / 125];
        let mut tally = tally_of(before);
        match counted(before, answer) {
            Some(after) => {
                assert_eq!(tally.count(answer), Ok(()));
                assert_eq!(counts(&tally), after);
            }
            None => {
                assert_eq!(tally.count(answer), Err(Refusal::TallyFull));
                assert_eq!(counts(&tally), before);
            }
        }
    }
}

#[test]
fn a_shift_is_counted() {
    let mut tally = Tally::new();
    for number in 0..1_000 {
        let answer = if number % 3 == 0 {
            Ok(())
        } else {
            Err(Refusal::PullOutside)
        };
        assert_eq!(tally.count(answer), Ok(()));
    }
    assert_eq!(counts(&tally), [1_000, 334, 666]);
    assert_eq!(tally_of([1_000, 334, 666]).as_bytes(), tally.as_bytes());
}

#[test]
fn entering_a_row_changes_that_row_alone() {
    let answers = [
        Ok(()),
        Err(Refusal::RhoWrong(Pair::Second)),
        Err(Refusal::LedgerDamaged),
        spent_in(0),
        spent_in(65_535),
    ];
    let mut list = DayList::with_rows(40);
    let mut rows = vec![
        DayRow {
            seal: u32::MAX,
            answer: DayAnswer::NotGiven
        };
        40
    ];
    for turn in 0..2_000 {
        // 13 and 44 have no divisor in common, so every row has its turn, with each answer.
        let row = 13 * turn % 44;
        let seal = (turn as u32).wrapping_mul(2_654_435_761);
        let answer = answers[turn % 5];
        let expected = if row < 40 {
            Ok(())
        } else {
            Err(Refusal::NoSuchRow)
        };
        assert_eq!(list.enter(row, seal, answer), expected);
        if row < 40 {
            let answer = answer.into();
            rows[row] = DayRow { seal, answer };
        }
        let found: Vec<DayRow> = (0..list.rows()).filter_map(|row| list.row(row)).collect();
        assert_eq!(found, rows);
    }
    assert_eq!(list.row(40), None);
}

#[test]
fn what_is_no_answer_is_not_entered() {
    let mut bytes = vec![9; 12];
    for answer in [65_536, 65_536 + 9, 1 << 24, 1 << 31, u32::MAX] {
        assert_eq!(calls::day(&mut bytes, 1, 1, answer), 54);
        assert_eq!(
            calls::day(&mut bytes, 2, 1, answer),
            53,
            "the row comes first"
        );
    }
    assert!(bytes.iter().all(|byte| *byte == 9));
    assert_eq!(calls::day(&mut bytes, 1, 1, 65_535), 0);
    assert_eq!(bytes[6..], [1, 0, 0, 0, 255, 255]);
}

/// An answer with a row is one with the number 8, and is entered without it.
#[test]
fn a_row_is_taken_with_8_alone_and_is_not_kept() {
    for number in 0..=255_u8 {
        for (place, row) in [(0, 1), (1, 1), (2, 255), (1, 256), (2, 2_047), (2, 65_535)] {
            let mut bytes = [9; 6];
            let code = u32::from(number) + 256 * u32::from(place) + 65_536 * row;
            let answer = calls::day(&mut bytes, 0, 1, code);
            let (expected, after) = match number {
                8 => (0, [1, 0, 0, 0, 8, place]),
                _ => (54, [9; 6]),
            };
            assert_eq!((answer, bytes), (expected, after), "{number} {place} {row}");
        }
    }
}

/// The number and the place of a row, and the words of both.
#[test]
fn a_row_says_number_and_place() {
    let mut list = DayList::with_rows(3);
    assert_eq!(list.enter(0, 1, spent_in(3)), Ok(()));
    assert_eq!(list.enter(1, 1, Ok(())), Ok(()));
    let said = [0, 1, 2].map(|row| list.row(row).expect("a row").answer);
    let (number, place) = (8, 2);
    assert_eq!(
        said,
        [
            DayAnswer::Refused { number, place },
            DayAnswer::Passed,
            DayAnswer::NotGiven
        ]
    );
    assert_eq!(
        said.map(|answer| answer.to_string()),
        [
            "the second nullifier is already spent",
            "accepted",
            "no answer was given"
        ]
    );
}

#[test]
fn an_unnamed_answer_is_a_refusal_in_both_books() {
    for code in [0x2a, 0x100, 0xff01, 1 << 16, 0x1_0109, 0x1_0308, u32::MAX] {
        let answer = Refusal::answer(code);
        assert!(matches!(answer, Err(Refusal::Unknown(_))), "{code:#x}");
        let (mut tally, mut list) = (Tally::new(), DayList::with_rows(1));
        assert_eq!(tally.count(answer), Ok(()));
        assert_eq!(counts(&tally), [1, 0, 1]);
        let (entered, found) = match code {
            0x2a | 0xff01 | 0x1_0308 => (Ok(()), answer.into()),
            _ => (Err(Refusal::NoAnswer), DayAnswer::NotGiven),
        };
        assert_eq!(list.enter(0, 7, answer), entered);
        assert_eq!(list.row(0).map(|row| row.answer), Some(found));
    }
}

/// A row whose number is 0 would be read as a pass.
#[test]
fn a_refusal_without_a_number_is_not_entered() {
    for place in 1..=255 {
        let answer = Refusal::answer(256 * place);
        let mut list = DayList::with_rows(1);
        assert_eq!(list.enter(0, 7, answer), Err(Refusal::NoAnswer));
        assert_eq!(list.enter(1, 7, answer), Err(Refusal::NoSuchRow));
        assert_eq!(list, DayList::with_rows(1));
    }
}

#[test]
fn rows_past_any_list_are_refused() {
    for length in [0, 5, 6, 11, 12] {
        let mut bytes = vec![9; length];
        for row in [length / 6, 1 << 32, usize::MAX / 6 + 1, usize::MAX] {
            assert_eq!(calls::day(&mut bytes, row, 1, 264), 53);
        }
        assert!(bytes.iter().all(|byte| *byte == 9));
    }
    let mut list = DayList::from_bytes(vec![9; 11]);
    assert_eq!(list.enter(0, 0x0403_0201, spent_in(0x0605)), Ok(()));
    assert_eq!(
        list.as_bytes(),
        [1, 2, 3, 4, 8, 2, 9, 9, 9, 9, 9],
        "spare bytes stay"
    );
}
