//! Makes a tape from a seed: `maketape SEED ENTRIES TAPE LINES`.
//!
//! The tape goes to one file and the lines it must print to another. What
//! the tape reaches goes to standard error, or to a file that is named by
//! `--coverage FILE` at the end.

use std::fs;
use std::process::ExitCode;

use second::maker::make_tape;

const USAGE: &str = "usage: maketape SEED ENTRIES TAPE LINES [--coverage FILE]";

/// What the command line asks for.
struct Wish {
    seed: u64,
    entries: usize,
    tape: String,
    lines: String,
    coverage: Option<String>,
}

fn main() -> ExitCode {
    let words: Vec<String> = std::env::args().skip(1).collect();
    let Some(wish) = read_wish(&words) else {
        eprintln!("{USAGE}");
        return ExitCode::from(2);
    };
    match grant(&wish) {
        Ok(()) => ExitCode::SUCCESS,
        Err(error) => {
            eprintln!("maketape: {error}");
            ExitCode::FAILURE
        }
    }
}

fn read_wish(words: &[String]) -> Option<Wish> {
    let (plain, coverage) = match words {
        [plain @ .., option, file] if option == "--coverage" => (plain, Some(file.clone())),
        plain => (plain, None),
    };
    let [seed, entries, tape, lines] = plain else {
        return None;
    };
    Some(Wish {
        seed: seed.parse().ok()?,
        entries: entries.parse().ok()?,
        tape: tape.clone(),
        lines: lines.clone(),
        coverage,
    })
}

fn grant(wish: &Wish) -> std::io::Result<()> {
    let tape = make_tape(wish.seed, wish.entries);
    let lines: String = tape.lines.iter().map(|line| format!("{line}\n")).collect();
    fs::write(&wish.tape, &tape.bytes)?;
    fs::write(&wish.lines, lines)?;
    match &wish.coverage {
        Some(file) => fs::write(file, tape.coverage.to_string()),
        None => {
            eprint!("{}", tape.coverage);
            Ok(())
        }
    }
}
