//! Reads a bag from standard input and prints document 01's lines. With
//! `--rows` a case that is refused as spent is followed by the row where its
//! nullifier stood.

use std::io::{self, Read};
use std::process::ExitCode;

use second::bag::{explain_bag, judge_bag};

const USAGE: &str = "usage: judgebag [--rows] < BAG";

fn main() -> ExitCode {
    let words: Vec<String> = std::env::args().skip(1).collect();
    let words: Vec<&str> = words.iter().map(String::as_str).collect();
    let lines_of = match words[..] {
        [] => judge_bag,
        ["--rows"] => explain_bag,
        _ => {
            eprintln!("{USAGE}");
            return ExitCode::from(2);
        }
    };
    match print_lines(lines_of) {
        Ok(()) => ExitCode::SUCCESS,
        Err(error) => {
            eprintln!("judgebag: {error}");
            ExitCode::FAILURE
        }
    }
}

/// Prints the lines of the bag on standard input.
fn print_lines(lines_of: fn(&[u8]) -> Vec<String>) -> io::Result<()> {
    let mut bag = Vec::new();
    io::stdin().lock().read_to_end(&mut bag)?;
    for line in lines_of(&bag) {
        println!("{line}");
    }
    Ok(())
}
