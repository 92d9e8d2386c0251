//! A host in Rust for a large depot: judges bags one after the other on one
//! ledger with all the room that there can be, and closes a block after each.
//! Of each bag it prints the lines that `judge_bag` prints, and at the end how
//! many cases and blocks more there is room for.
//!
//!     depot BAG..

use std::ffi::OsString;
use std::io::{self, Write};
use std::process::ExitCode;

use snaldrek::{Answer, Calibration, Ledger, Refusal, MAX_ANCHORS, MAX_SPENT};

/// Which of the two went wrong: 2 for a bag that cannot be read, 1 for a line
/// that cannot be written.
type Failed = (io::Error, u8);

fn unread(error: io::Error) -> Failed {
    (error, 2)
}

fn unprinted(error: io::Error) -> Failed {
    (error, 1)
}

fn main() -> ExitCode {
    let names: Vec<OsString> = std::env::args_os().skip(1).collect();
    match judge_all(&names, &mut io::stdout().lock()) {
        Ok(()) => ExitCode::SUCCESS,
        Err((error, status)) => {
            eprintln!("depot: {error}");
            ExitCode::from(status)
        }
    }
}

/// The wrapper takes the ledger's memory, some 2 MiB, from the heap, once and
/// before the first bag.
fn judge_all(names: &[OsString], out: &mut impl Write) -> Result<(), Failed> {
    if names.is_empty() {
        return Err(unread(io::Error::other("depot BAG..")));
    }
    let mut ledger =
        Ledger::open(MAX_SPENT, MAX_ANCHORS).expect("a roll with rows is never refused");
    for name in names {
        let bag = std::fs::read(name).map_err(unread)?;
        judge(&mut ledger, &bag, out).map_err(unprinted)?;
    }
    print_room(&ledger, out).map_err(unprinted)
}

/// A block that is refused, as the roll is full, is told: no anchor is made of
/// the bag then.
fn judge(ledger: &mut Ledger, bag: &[u8], out: &mut impl Write) -> io::Result<()> {
    match ledger.scan_bag(bag, Calibration::PLAIN) {
        Err(broken @ Refusal::LayoutBroken) => print_answer(out, "bag", Err(broken))?,
        Err(seal) => print_answer(out, "seal", Err(seal))?,
        Ok(cases) => {
            print_answer(out, "seal", Ok(()))?;
            for answer in cases {
                print_answer(out, "case", answer)?;
            }
            let (spent, leaves, pool) = (ledger.spent(), ledger.leaves(), ledger.pool());
            writeln!(out, "ledger spent {spent} leaves {leaves} pool {pool}")?;
        }
    }
    if let refused @ Err(_) = ledger.close() {
        print_answer(out, "block", refused)?;
    }
    out.flush()
}

/// A case takes two rows of the table, a block one of the roll.
fn print_room(ledger: &Ledger, out: &mut impl Write) -> io::Result<()> {
    let cases = (MAX_SPENT as u64 - ledger.spent()) / 2;
    let blocks = MAX_ANCHORS as u64 - ledger.anchors();
    writeln!(out, "room cases {cases} blocks {blocks}")?;
    out.flush()
}

fn print_answer(out: &mut impl Write, what: &str, answer: Answer) -> io::Result<()> {
    let (number, place) = match answer {
        Ok(()) => (0, 0),
        Err(refusal) => (refusal.number(), refusal.place()),
    };
    writeln!(out, "{what} {number} {place}")
}
