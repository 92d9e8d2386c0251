//! The smallest host in Rust: judges one bag on a fresh ledger, as the scanner
//! program does, and prints the same lines.
//!
//!     judge_bag [FILE]        standard input where no FILE is named

use std::io::{self, Read, Write};
use std::process::ExitCode;

use snaldrek::{Answer, Calibration, Ledger, Refusal};

/// The scanner program's, far from all the room that there can be.
const TABLE_ROWS: usize = 2_048;
const ROLL_ROWS: usize = 1_024;

fn main() -> ExitCode {
    let (error, status) = match read_bag() {
        Err(error) => (error, 2),
        Ok(bag) => match judge(&bag, &mut io::stdout().lock()) {
            Err(error) => (error, 1),
            Ok(()) => return ExitCode::SUCCESS,
        },
    };
    eprintln!("judge_bag: {error}");
    ExitCode::from(status)
}

fn judge(bag: &[u8], out: &mut impl Write) -> io::Result<()> {
    let mut ledger =
        Ledger::open(TABLE_ROWS, ROLL_ROWS).expect("a roll with rows is never refused");
    match ledger.scan_bag(bag, Calibration::PLAIN) {
        Err(broken @ Refusal::LayoutBroken) => print_answer(out, "bag", Err(broken))?,
        Err(seal) => print_answer(out, "seal", Err(seal))?,
        Ok(cases) => {
            print_answer(out, "seal", Ok(()))?;
            for answer in cases {
                print_answer(out, "case", answer)?;
            }
            let (spent, leaves, pool) = (ledger.spent(), ledger.leaves(), ledger.pool());
            writeln!(out, "ledger spent {spent} leaves {leaves} pool {pool}")?;
        }
    }
    out.flush()
}

fn read_bag() -> io::Result<Vec<u8>> {
    let mut bag = Vec::new();
    match std::env::args_os().nth(1) {
        Some(file) => bag = std::fs::read(file)?,
        None => {
            io::stdin().read_to_end(&mut bag)?;
        }
    }
    Ok(bag)
}

fn print_answer(out: &mut impl Write, what: &str, answer: Answer) -> io::Result<()> {
    let (number, place) = match answer {
        Ok(()) => (0, 0),
        Err(refusal) => (refusal.number(), refusal.place()),
    };
    writeln!(out, "{what} {number} {place}")
}
