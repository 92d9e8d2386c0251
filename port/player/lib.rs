//! What every module of the port stands on: the chosen variant, and memory for the two toolchain crates that
//! talk to the system.
#![allow(warnings, arithmetic_overflow, unconditional_panic)]
use std::cell::{Cell, RefCell};
use std::fmt::{self, Write};

pub mod draw;
pub mod search_run;
pub use draw::{Dice, Draw};
include!("modules.rs");

thread_local! {
    static VARIANT: Cell<u32> = const { Cell::new(0) };
    static TURNS: Cell<u32> = const { Cell::new(0) };
    static COUNTED: Cell<u32> = const { Cell::new(0) };
}

/// More turns than a bag of cases takes on the longest table, where an accepted one moves up to 4 MiB byte by byte.
const MOST_TURNS: u32 = 60_000_000;

/// The number of the variant that is played; 0 is the code as it is.
#[inline(always)]
pub fn variant() -> u32 {
    VARIANT.get()
}

/// Chooses a variant for one run, or for one call of a run.
pub fn choose(number: u32) {
    VARIANT.set(number);
    TURNS.set(0);
}

/// Counts the turns of all loops that nothing else bounds: whoever makes too many does not end.
pub fn turn() -> bool {
    TURNS.set(TURNS.get() + 1);
    assert!(TURNS.get() < MOST_TURNS, "it does not end");
    true
}

/// Counts a call of a function that translate.py has among those to be counted.
#[inline(always)]
pub fn count() {
    COUNTED.set(COUNTED.get() + 1);
}

/// How often such functions were called since this was asked last.
pub fn counted() -> u32 {
    COUNTED.take()
}

/// A call with drawn arguments: the function's name, whether it is public, and the call, which tells what was
/// given, what came back and what the lent memory is then.
pub type Call = (&'static str, bool, fn(&mut Dice) -> [Told; 3]);

/// A value's beginning, to be read, and a hash of all of it, to be compared.
#[derive(Clone, PartialEq)]
pub struct Told {
    pub start: String,
    hash: u64,
}

impl Write for Told {
    fn write_str(&mut self, text: &str) -> fmt::Result {
        for byte in text.bytes() {
            self.hash = (self.hash ^ u64::from(byte)).wrapping_mul(0x100_0000_01b3);
        }
        self.start.extend(text.chars().take(60usize.saturating_sub(self.start.len())));
        Ok(())
    }
}

pub fn told(value: &impl fmt::Debug) -> Told {
    let mut told = Told { start: String::new(), hash: 0xcbf2_9ce4_8422_2325 };
    write!(told, "{value:?}").expect("memory takes all");
    told
}

/// What a program is handed: standard input and output in memory. What it tells on standard error is dropped.
#[derive(Clone, Copy, Debug)]
pub struct HostRuntime;

pub trait Print {
    fn write_all(&self, bytes: &[u8]) -> std::io::Result<()>;
}

pub trait Eprint {
    fn eprintln(&self, text: &str) -> std::io::Result<()>;
}

impl HostRuntime {
    pub fn stdin(&self) -> io::Stdin {
        io::Stdin
    }
}

impl Print for HostRuntime {
    fn write_all(&self, bytes: &[u8]) -> std::io::Result<()> {
        io::print(bytes);
        Ok(())
    }
}

impl Eprint for HostRuntime {
    fn eprintln(&self, _: &str) -> std::io::Result<()> {
        Ok(())
    }
}

pub mod io {
    use super::*;

    thread_local! {
        static INPUT: RefCell<Vec<u8>> = const { RefCell::new(Vec::new()) };
        static READ: Cell<usize> = const { Cell::new(0) };
        static OUTPUT: RefCell<Vec<u8>> = const { RefCell::new(Vec::new()) };
    }

    /// Runs something on an input, and gives its result and what it printed.
    pub fn play<R>(program: impl FnOnce() -> R, input: &[u8]) -> (R, Vec<u8>) {
        hand(input.to_vec());
        TURNS.set(0);
        OUTPUT.take();
        (program(), OUTPUT.take())
    }

    /// Makes some bytes the input.
    pub fn hand(input: Vec<u8>) {
        INPUT.replace(input);
        READ.set(0);
    }

    pub fn print(bytes: &[u8]) {
        OUTPUT.with_borrow_mut(|output| output.extend_from_slice(bytes));
    }

    pub struct Stdin;

    /// The turns are counted anew from each byte of the input on.
    impl std::io::Read for Stdin {
        fn read(&mut self, buffer: &mut [u8]) -> std::io::Result<usize> {
            let n = INPUT.with_borrow(|input| (&input[READ.get()..]).read(buffer))?;
            READ.set(READ.get() + n);
            if n > 0 {
                TURNS.set(0);
            }
            Ok(n)
        }
    }

    /// The bytes that are still to be read.
    impl fmt::Debug for Stdin {
        fn fmt(&self, f: &mut fmt::Formatter) -> fmt::Result {
            INPUT.with_borrow(|input| write!(f, "{:?}", &input[READ.get()..]))
        }
    }
}
