//! Sleetbarley: a gate that holds approvals with withdrawn tags, and the matcher and the desk that it
//! stands on.
//!
//! The work is done by `libsleet.a`, each of whose functions is proved to keep its contract for
//! every argument. This crate puts Rust's types around it:
//!
//! - [`Gate`]: the one way to decide: approvals begun, handed in piece by piece, and a [`Verdict`];
//! - [`TagSet`]: a lawful set of tags, exact and folded, and [`text`], its form for people;
//! - [`Desk`]: what a gate stands on, for those who want to know where each tag ends;
//! - [`SplitTable`], [`WholeTable`] and [`BitmapTable`]: building and reading outside a desk;
//! - [`Serial`], [`Edition`] and [`Tag`]: three kinds of number that can't be passed for one
//!   another;
//! - [`Refusal`]: why a call was refused;
//! - [`lent`]: the desk's calls over tables and lists that the caller lends.
//!
//! ```
//! use sleetbarley::{Gate, Refusal, TagSet, Verdict};
//!
//! /// Reads an approval from its first byte and decides; a stale one is read again.
//! fn passes(gate: &mut Gate, pieces: &[&str]) -> Result<bool, Refusal> {
//!     loop {
//!         let approval = gate.begin()?;
//!         for piece in pieces {
//!             // What a piece answers is known to the verdict too.
//!             match gate.piece(approval, piece.as_bytes()) {
//!                 Ok(_) | Err(Refusal::Stale { .. }) => {}
//!                 Err(refusal) => return Err(refusal),
//!             }
//!         }
//!         match gate.decide(approval)? {
//!             Verdict::Pass => return Ok(true),
//!             Verdict::Hold(held) => {
//!                 println!("held: {held}");
//!                 return Ok(false);
//!             }
//!             Verdict::Stale { .. } => continue,
//!             Verdict::Unread => return Ok(false),
//!         }
//!     }
//! }
//!
//! fn main() -> Result<(), Refusal> {
//!     let mut gate = Gate::new();
//!     // Phones rewrite a case's name in capitals, so it is matched in either case.
//!     gate.replace(&TagSet::builder().folded("K-1041").tag("scan:aZ9").build()?)?;
//!     let eighth = passes(&mut gate, &["batch 8 as ", "k-3007"])?;
//!     let seventh = passes(&mut gate, &["batch 7 after k-10", "41 was repeated"])?;
//!     assert!(eighth && !seventh);
//!     Ok(())
//! }
//! ```
//!
//! A gate or a desk can be moved to another thread. The archive has no state of its own, so they
//! have nothing in common. [`Gate`] says what to see to before an approval is let through.
#![deny(unsafe_code)]
#![deny(missing_docs)]
#![warn(missing_debug_implementations)]

#[cfg(test)]
mod any_image;
mod desk;
mod entry;
mod gate;
mod kept;
pub mod lent;
mod numbers;
mod raw;
mod refusal;
mod set;
mod split;
mod table;
pub mod text;

pub use desk::{Desk, Drain};
pub use entry::{AsEntry, Entry, Kind};
pub use gate::{Gate, Held, Piece, Verdict};
pub use numbers::{Edition, Fed, Found, Record, Replaced, Serial, Stop, Tag, Ticket, TicketState};
pub use refusal::Refusal;
pub use set::{TagSet, TagSetBuilder};
pub use table::{BitmapTable, SplitTable, WholeTable};

/// The version of the archive that this program is linked with: major, minor and patch. The tests
/// hold it against the crate's own.
pub fn archive_version() -> (u64, u64, u64) {
    let number = raw::version();
    (number / 10_000, number / 100 % 100, number % 100)
}
