//! A host in Rust that keeps its ledger in a file and loses nothing when the
//! power goes: judges the cases of a bag one by one, and answers each only
//! after the ledger that it left is stored. `keep_ledger.c` has the same file,
//! and says how it is laid out.
//!
//!     keep_ledger STORE BAG       STORE is made where there is none

use std::fs::{self, File, OpenOptions};
use std::io::{self, Write};
use std::os::unix::fs::FileExt;
use std::path::Path;
use std::process::ExitCode;

use snaldrek::{calls, Calibration, Ledger, LEDGER_BYTES, ROW_BYTES};

const TABLE_ROWS: usize = 2_048;
const ROLL_ROWS: usize = 1_024;

const DIGEST: usize = 32;
const HEAD: usize = DIGEST + 16;
const TABLE: usize = HEAD + LEDGER_BYTES;
const ROLL: usize = TABLE + TABLE_ROWS * ROW_BYTES;
const SLOT: usize = ROLL + ROLL_ROWS * ROW_BYTES;

/// A ledger, and the turn at which it was stored last.
struct Kept {
    ledger: Ledger,
    turn: u64,
}

fn digest_of(slot: &[u8]) -> [u8; DIGEST] {
    let mut digest = [0; DIGEST];
    calls::hash(&slot[DIGEST..], &mut digest);
    digest
}

fn number_at(slot: &[u8], at: usize) -> u64 {
    u64::from_le_bytes(std::array::from_fn(|i| slot[at + i]))
}

impl Kept {
    /// Stores the ledger in the slot of the next turn: what is judged on first,
    /// the head last.
    fn store(&mut self, file: &File) -> io::Result<()> {
        self.turn += 1;
        let (bytes, table, roll) = self.ledger.parts();
        let length = (SLOT - HEAD) as u64;
        let after_digest = [
            &self.turn.to_le_bytes(),
            &length.to_le_bytes(),
            &bytes[..],
            table,
            roll,
        ];
        let mut slot = vec![0; DIGEST];
        slot.extend(after_digest.concat());
        let digest = digest_of(&slot);
        slot[..DIGEST].copy_from_slice(&digest);
        let at = self.turn % 2 * SLOT as u64;
        file.write_all_at(&slot[HEAD..], at + HEAD as u64)?;
        file.sync_all()?;
        file.write_all_at(&slot[..HEAD], at)?;
        file.sync_all()
    }

    /// The ledger of a slot, if that is there and whole.
    fn read(file: &File, number: u64) -> Option<Kept> {
        let mut slot = vec![0; SLOT];
        file.read_exact_at(&mut slot, number * SLOT as u64).ok()?;
        let whole = number_at(&slot, DIGEST + 8) == (SLOT - HEAD) as u64;
        if !whole || digest_of(&slot) != slot[..DIGEST] {
            return None;
        }
        let bytes = slot[HEAD..TABLE].try_into().ok()?;
        Some(Kept {
            ledger: Ledger::from_parts(bytes, slot[TABLE..ROLL].to_vec(), slot[ROLL..].to_vec()),
            turn: number_at(&slot, DIGEST),
        })
    }

    /// The newer slot of those that check.
    fn load(file: &File) -> io::Result<Kept> {
        let slots = (0..2).filter_map(|number| Kept::read(file, number));
        slots
            .max_by_key(|kept| kept.turn)
            .ok_or_else(|| io::Error::other("neither slot checks"))
    }
}

/// A store gets its name when it is whole, so that one without a slot that
/// checks was damaged, and is not taken for a new one.
fn make(name: &Path) -> io::Result<()> {
    let mut unfinished = name.as_os_str().to_owned();
    unfinished.push(".new");
    let ledger = Ledger::open(TABLE_ROWS, ROLL_ROWS).map_err(io::Error::other)?;
    Kept { ledger, turn: 0 }.store(&File::create(&unfinished)?)?;
    fs::rename(&unfinished, name)?;
    let folder = name.parent().filter(|folder| *folder != Path::new(""));
    File::open(folder.unwrap_or(Path::new(".")))?.sync_all()
}

/// The cases of a bag, whose layout and seal are found sound on a ledger that
/// is thrown away.
fn cases(bag: &[u8]) -> io::Result<Vec<&[u8]>> {
    let mut none = Ledger::open(0, 1).map_err(io::Error::other)?;
    none.scan_bag(bag, Calibration::PLAIN)
        .map_err(io::Error::other)?;
    let (rows, _) = bag[2..2 + 9 * usize::from(bag[0])].as_chunks::<9>();
    let part = |row: &[u8; 9], at: usize| {
        u32::from_le_bytes(std::array::from_fn(|i| row[at + i])) as usize
    };
    Ok(rows[1..]
        .iter()
        .map(|row| &bag[part(row, 1)..][..part(row, 5)])
        .collect())
}

/// Which of the two went wrong: 2 for what is read or stored, 1 for a line that
/// cannot be written.
type Failed = (io::Error, u8);

fn unprinted(error: io::Error) -> Failed {
    (error, 1)
}

fn unkept(error: io::Error) -> Failed {
    (error, 2)
}

fn judge(store: &Path, bag: &[u8]) -> Result<(), Failed> {
    let cases = cases(bag).map_err(unkept)?;
    if !store.exists() {
        make(store).map_err(unkept)?;
    }
    let file = OpenOptions::new().read(true).write(true).open(store);
    let file = file.map_err(unkept)?;
    let mut kept = Kept::load(&file).map_err(unkept)?;
    let mut out = io::stdout().lock();
    for case in cases {
        let (number, place) = match kept.ledger.judge(case) {
            Ok(()) => {
                kept.store(&file).map_err(unkept)?;
                (0, 0)
            }
            Err(refusal) => (refusal.number(), refusal.place()),
        };
        writeln!(out, "case {number} {place}").map_err(unprinted)?;
    }
    let (spent, leaves, pool) = (
        kept.ledger.spent(),
        kept.ledger.leaves(),
        kept.ledger.pool(),
    );
    writeln!(out, "ledger spent {spent} leaves {leaves} pool {pool}").map_err(unprinted)?;
    out.flush().map_err(unprinted)
}

fn main() -> ExitCode {
    let names: Vec<_> = std::env::args_os().skip(1).collect();
    let done = match &names[..] {
        [store, bag] => fs::read(bag)
            .map_err(unkept)
            .and_then(|bag| judge(Path::new(store), &bag)),
        _ => Err(unkept(io::Error::other("keep_ledger STORE BAG"))),
    };
    match done {
        Ok(()) => ExitCode::SUCCESS,
        Err((error, status)) => {
            eprintln!("keep_ledger: {error}");
            ExitCode::from(status)
        }
    }
}
