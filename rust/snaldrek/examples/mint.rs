//! A host in Rust that mints: fills in a draft that puts an amount into the
//! pool for one recipient, has the whole case written, judges it on a fresh
//! ledger, and stores it. It prints what the desk answers, and where that is yes
//! the lines that `judge_bag` prints of a case. A refused draft stores nothing.
//!
//!     mint ZATOSHI ADDRESS CASE      ADDRESS is a file with the recipient's
//!                                    a_pk, 32 bytes; CASE is written

use std::ffi::OsString;
use std::fs::{self, File};
use std::io::{self, Read, Write};
use std::process::ExitCode;

use snaldrek::{Answer, Draft, Ledger, NewNote, OldNote, Proof};

/// Which of the two went wrong: 2 for what is read or stored, 1 for a line that
/// cannot be written.
type Failed = (io::Error, u8);

fn unkept(error: io::Error) -> Failed {
    (error, 2)
}

fn unprinted(error: io::Error) -> Failed {
    (error, 1)
}

fn main() -> ExitCode {
    let words: Vec<OsString> = std::env::args_os().skip(1).collect();
    match mint(&words) {
        Ok(()) => ExitCode::SUCCESS,
        Err((error, status)) => {
            eprintln!("mint: {error}");
            ExitCode::from(status)
        }
    }
}

fn mint(words: &[OsString]) -> Result<(), Failed> {
    let usage = || unkept(io::Error::other("mint ZATOSHI ADDRESS CASE"));
    let [zatoshi, address, case] = words else {
        return Err(usage());
    };
    let zatoshi = zatoshi.to_str().and_then(|text| text.parse().ok());
    let address = read_start(address).map_err(unkept)?;
    let mut ledger = Ledger::open(2, 1).expect("a roll with a row is never refused");
    let draft = draft_of(ledger.root(), address, zatoshi.ok_or_else(usage)?).map_err(unkept)?;
    let mut out = io::stdout().lock();
    match draft.write() {
        Err(refusal) => print_answer(&mut out, "desk", Err(refusal)).map_err(unprinted)?,
        Ok(file) => {
            print_answer(&mut out, "desk", Ok(())).map_err(unprinted)?;
            judge(&mut ledger, &file, &mut out).map_err(unprinted)?;
            fs::write(case, file).map_err(unkept)?;
        }
    }
    out.flush().map_err(unprinted)
}

/// Two old notes of no value, and one new note with all of it. Keys, rho, r, phi
/// and seed are random. What is carried would come from the transaction, with its
/// key.
fn draft_of(anchor: [u8; 32], address: [u8; 32], zatoshi: u64) -> io::Result<Draft> {
    let old = || io::Result::Ok(OldNote::without_value(key()?, random()?));
    let new = |value| random().map(|r| NewNote { address, value, r });
    Ok(Draft {
        vpub_old: zatoshi,
        vpub_new: 0,
        anchor,
        ephemeral_key: random()?,
        seed: random()?,
        proof: Proof::Second(random()?),
        ciphertexts: [random()?, random()?],
        transaction_key: random()?,
        old: [old()?, old()?],
        new: [new(zatoshi)?, new(0)?],
        phi: key()?,
    })
}

fn random<const N: usize>() -> io::Result<[u8; N]> {
    read_start("/dev/urandom")
}

/// A number of 252 bits.
fn key() -> io::Result<[u8; 32]> {
    let mut key: [u8; 32] = random()?;
    key[0] &= 0x0f;
    Ok(key)
}

/// So many bytes from the start of a file.
fn read_start<const N: usize>(name: impl AsRef<std::path::Path>) -> io::Result<[u8; N]> {
    let mut bytes = [0; N];
    File::open(name)?.read_exact(&mut bytes)?;
    Ok(bytes)
}

fn judge(ledger: &mut Ledger, file: &[u8], out: &mut impl Write) -> io::Result<()> {
    print_answer(out, "case", ledger.judge(file))?;
    let (spent, leaves, pool) = (ledger.spent(), ledger.leaves(), ledger.pool());
    writeln!(out, "ledger spent {spent} leaves {leaves} pool {pool}")
}

fn print_answer(out: &mut impl Write, what: &str, answer: Answer) -> io::Result<()> {
    let (number, place) = match answer {
        Ok(()) => (0, 0),
        Err(refusal) => (refusal.number(), refusal.place()),
    };
    writeln!(out, "{what} {number} {place}")
}
