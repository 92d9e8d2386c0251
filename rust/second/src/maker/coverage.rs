//! What a tape reaches: its answers and its purposes, and how often.

use std::collections::BTreeMap;
use std::fmt;

use crate::answer::{Answer, Row};
use crate::case::Edition;

/// How often each answer and each purpose is on a tape.
#[derive(Clone, Debug, Default)]
pub struct Coverage {
    answers: BTreeMap<(String, Answer), usize>,
    purposes: BTreeMap<String, Times>,
}

/// How often entries were made for something, and in how many of them a case is
/// in the first edition, and in the second. Some have no case, or one that is in
/// neither.
#[derive(Clone, Copy, Debug, Default)]
struct Times {
    all: usize,
    editions: [usize; 2],
}

impl Coverage {
    /// Counts the lines of a tape and the purposes of its entries, each with the
    /// edition of its case.
    pub fn of(
        lines: &[String],
        purposes: impl Iterator<Item = (String, Option<Edition>)>,
    ) -> Coverage {
        let mut coverage = Coverage::default();
        for (kind, answer) in lines.iter().filter_map(|line| answer_of(line)) {
            let key = (kind.to_owned(), answer);
            *coverage.answers.entry(key).or_default() += 1;
        }
        for (purpose, edition) in purposes {
            let times = coverage.purposes.entry(purpose).or_default();
            times.all += 1;
            if let Some(edition) = edition {
                times.editions[edition as usize] += 1;
            }
        }
        coverage
    }

    /// How often lines of this kind gave this answer.
    pub fn times(&self, kind: &str, answer: Answer) -> usize {
        let key = (kind.to_owned(), answer);
        self.answers.get(&key).copied().unwrap_or(0)
    }

    /// How often entries were made for this.
    pub fn times_made_for(&self, purpose: &str) -> usize {
        self.times_of(purpose).all
    }

    /// How often entries with a case in this edition were made for this.
    pub fn times_made_in(&self, edition: Edition, purpose: &str) -> usize {
        self.times_of(purpose).editions[edition as usize]
    }

    fn times_of(&self, purpose: &str) -> Times {
        self.purposes.get(purpose).copied().unwrap_or_default()
    }
}

impl fmt::Display for Coverage {
    fn fmt(&self, out: &mut fmt::Formatter<'_>) -> fmt::Result {
        writeln!(out, "line   number  place  times")?;
        for ((kind, answer), times) in &self.answers {
            let (number, place) = (answer.number, answer.place);
            writeln!(out, "{kind:<6} {number:>6}  {place:>5}  {times:>5}")?;
        }
        writeln!(out, "\ntimes  first  second  made for")?;
        for (purpose, times) in &self.purposes {
            let [first, second] = times.editions;
            writeln!(out, "{:>5}  {first:>5}  {second:>6}  {purpose}", times.all)?;
        }
        Ok(())
    }
}

/// The answer of an entry that printed these lines: number and place stand in
/// the first, and the row in a second one behind a case that is refused as
/// spent, and there alone.
pub fn answer_in(lines: &[String]) -> Option<Answer> {
    let (line, behind) = lines.split_first()?;
    let (_, answer) = answer_of(line)?;
    match (answer.named_row(), behind) {
        (None, []) => Some(answer),
        (Some(_), [row]) => Some(Answer {
            row: Row(row.strip_prefix("row ")?.parse().ok()?),
            ..answer
        }),
        _ => None,
    }
}

/// The kind of a line and its number and place, if it is one that answers.
pub fn answer_of(line: &str) -> Option<(&str, Answer)> {
    let mut words = line.split(' ');
    let kind = words.next()?;
    let number = words.next()?.parse().ok()?;
    let place = words.next()?.parse().ok()?;
    Some((kind, Answer::new(number, place)))
}
