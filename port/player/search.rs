//! Searches tables of every length up to 2,047 rows, and then of those around each power of two and of the two longest
//! that are searched: 65,534 rows where a case is asked about, and one more where its second nullifier is entered.
use port::search_run::most_comparisons;

const EVERY: usize = 2_047;
const LONGEST: usize = 65_535;
const WANTED: u32 = 16;

/// The lengths past those that are all searched.
fn beyond() -> Vec<usize> {
    let around = (11..16).flat_map(|power| [(1 << power) - 1, 1 << power, (1 << power) + 1]);
    around.filter(|rows| *rows > EVERY).chain([LONGEST - 1, LONGEST]).collect()
}

fn main() {
    std::panic::set_hook(Box::new(|_| {}));
    let most: Result<Vec<u32>, String> = (0..=EVERY).chain(beyond()).map(most_comparisons).collect();
    let said = most.and_then(|most| match most[most.len() - 2..] {
        [WANTED, WANTED] => Ok(format!(
            "every row and gap of 0 to {EVERY} rows and of {} more lengths up to {LONGEST}, by at most {WANTED} comparisons",
            beyond().len()
        )),
        [before, last] => Err(format!("{before} and {last} comparisons in {} and {LONGEST} rows", LONGEST - 1)),
        _ => unreachable!(),
    });
    println!("{}", said.as_ref().unwrap_or_else(|wrong| wrong));
    std::process::exit(i32::from(said.is_err()));
}
