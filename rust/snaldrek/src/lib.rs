//! The proved judge of disclosed Sprout JoinSplits, for Rust.
//!
//! A scanner opens a [`Ledger`], judges bags or single cases on it, closes
//! blocks, and keeps the shift's books in a [`Tally`] and a [`DayList`]. Whoever
//! prepares a case fills in a [`Draft`] and has it written. What is refused is
//! refused with a [`Refusal`], and has changed nothing.
//!
//! Nothing here judges: the library does, and this crate lends it memory and
//! reads its answers. Those who keep a ledger in memory of their own call
//! [`calls`], which is the C header over slices. Without the feature `alloc`
//! these, the [`Tally`], the seal, a [`Draft`] and a case's [`Edition`] are all
//! there is.
//!
//! ```
//! use snaldrek::{judge_seal, Calibration, Ledger, Refusal};
//!
//! let mut ledger = Ledger::open(2, 1)?;
//! assert_eq!(ledger.judge(b"no case"), Err(Refusal::WrongLength));
//! assert_eq!(ledger.spent(), 0);
//!
//! let mut body = [0; 25];
//! body[17..].copy_from_slice(&100.0_f64.to_le_bytes());
//! let calibration = Calibration { gain: 0.5, offset: 1.0 };
//! assert_eq!(judge_seal(&body, calibration), Ok(51.0));
//! # Ok::<(), Refusal>(())
//! ```
#![no_std]

#[cfg(feature = "alloc")]
extern crate alloc;

mod books;
pub mod calls;
mod draft;
mod edition;
#[cfg(feature = "alloc")]
mod ledger;
mod refusal;
mod seal;

pub use books::Tally;
#[cfg(feature = "alloc")]
pub use books::{DayAnswer, DayList, DayRow};
pub use draft::{Draft, NewNote, OldNote, Proof};
pub use edition::{Edition, MAX_CASE_BYTES};
#[cfg(feature = "alloc")]
pub use ledger::{
    Ledger, LEDGER_BYTES, MAX_ANCHORS, MAX_BAG_BYTES, MAX_MONEY, MAX_SPENT, ROW_BYTES,
};
pub use refusal::{Answer, Bound, Buffer, Pair, Refusal, TableRow, Unnamed};
pub use seal::{judge_seal, Calibration, SEAL_BYTES};
