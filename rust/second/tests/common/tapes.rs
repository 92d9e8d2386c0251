//! Tapes of three seeds, and what stands on them.

use std::sync::OnceLock;

use second::maker::{make_tape, Coverage};
use second::tape::{entry, judged_file};

pub const SEEDS: [u64; 3] = [1, 2, 0xffff_ffff_ffff_ffff];

/// A tape that was made.
pub struct Tape {
    pub bytes: Vec<u8>,
    pub lines: Vec<String>,
    pub coverage: Coverage,
    /// The tape as a ledger sees it: a case in the place of each draft of which the
    /// desk writes one.
    pub judged: Vec<u8>,
}

impl Tape {
    /// The tape of this seed with so many entries.
    pub fn of(seed: u64, entries: usize) -> Tape {
        let made = make_tape(seed, entries);
        Tape {
            judged: as_judged(&made.bytes),
            bytes: made.bytes,
            lines: made.lines,
            coverage: made.coverage,
        }
    }
}

/// The tapes of three seeds, which are made once for all tests.
pub type Tapes = std::iter::Zip<std::array::IntoIter<u64, 3>, std::slice::Iter<'static, Tape>>;

/// Those of 600 entries, each with its seed.
pub fn tapes() -> Tapes {
    static TAPES: OnceLock<[Tape; 3]> = OnceLock::new();
    let made = TAPES.get_or_init(|| SEEDS.map(|seed| Tape::of(seed, 600)));
    SEEDS.into_iter().zip(made)
}

/// Those of 700 entries, each with its seed.
pub fn long_tapes() -> Tapes {
    static TAPES: OnceLock<[Tape; 3]> = OnceLock::new();
    let made = TAPES.get_or_init(|| SEEDS.map(|seed| Tape::of(seed, 700)));
    SEEDS.into_iter().zip(made)
}

/// The kinds and bodies of a tape's entries, up to one that is cut.
pub fn entries(mut tape: &[u8]) -> Vec<(u8, &[u8])> {
    let mut entries = Vec::new();
    while let Some((head, rest)) = tape.split_first_chunk::<5>() {
        let length = u32::from_le_bytes([head[1], head[2], head[3], head[4]]);
        let Some((body, after)) = rest.split_at_checked(length as usize) else {
            break;
        };
        entries.push((head[0], body));
        tape = after;
    }
    entries
}

/// A tape with the cases that the desk writes in the place of their drafts.
fn as_judged(tape: &[u8]) -> Vec<u8> {
    let entries = entries(tape);
    let mut judged = Vec::new();
    let mut whole = 0;
    for (kind, body) in entries {
        whole += 5 + body.len();
        judged.extend(match judged_file(kind, body) {
            Some(file) => entry(b'C', &file),
            None => entry(kind, body),
        });
    }
    judged.extend(&tape[whole..]);
    judged
}

/// The entries of a run.
pub fn entries_of<'a>(tape: &'a [u8], run: &str) -> Vec<(u8, &'a [u8])> {
    let entries = entries(tape).into_iter();
    let from = entries.skip_while(|entry| *entry != (b'N', run.as_bytes()));
    from.skip(1).take_while(|(kind, _)| *kind != b'N').collect()
}

/// The lines of a run.
pub fn lines_of<'a>(lines: &'a [String], run: &str) -> impl Iterator<Item = &'a str> {
    let name = format!("run {run}");
    let behind = lines.iter().skip_while(move |line| **line != name).skip(1);
    behind
        .take_while(|line| !line.starts_with("run "))
        .map(String::as_str)
}
