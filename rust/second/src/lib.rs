//! An independent second judge of disclosed Sprout JoinSplits.
//!
//! It is written from document 01 (the scope), document 02 (what is changed of
//! it), the Zcash drafts and the standards alone, in ordinary Rust, so that
//! another implementation can be tried against it. It prefers the plain way to
//! the quick one: it keeps every leaf, it sorts the table anew after each
//! accepted case, and it searches from the top.
//!
//! - The judge: [`judge`], over [`ledger`], [`case`], [`tree`], [`hashes`].
//! - The wire's pull: [`seal`]. The bag: [`bag`]. The desk that writes cases: [`desk`].
//! - Tapes, which are runs of calls with printed answers: [`tape`].
//! - What writes cases and tapes: [`wallet`], [`maker`], [`random`].

pub mod answer;
pub mod bag;
pub mod blake2b;
pub mod bytes;
pub mod case;
pub mod desk;
pub mod hashes;
pub mod judge;
pub mod ledger;
pub mod maker;
pub mod random;
pub mod seal;
pub mod sha256;
pub mod tape;
pub mod tree;
pub mod wallet;
