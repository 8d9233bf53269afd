//! Futtockram for Rust: an index of batches that keeps itself balanced, in words lent by the caller.
//!
//! A [`Table`] borrows a slice of [`words_for`]`(slots)` words and keeps nothing else. Each call runs in the proved
//! library and gives an [`Answer`], or a [`Refusal`] that can be shown to a person; a refused call has written no word.
//!
//! ```
//! use futtockram::{words_for, Refusal, State, Table};
//!
//! let mut words = [0; words_for(15)];
//! let mut table = Table::start(&mut words)?;
//! table.post(480, 1200, State::Poured)?;
//! table.post(510, 900, State::Poured)?;
//! table.post(540, 750, State::Poured)?;
//! assert_eq!(table.worth()?.is, 18);
//!
//! let tidied = table.tidy(10)?;
//! assert_eq!((tidied.is.firings, tidied.is.quiet), (4, true));
//! assert_eq!(table.find(540)?.is.visits, 2);
//! assert_eq!(table.rank(4), Err(Refusal::RankAbsent));
//! # Ok::<(), Refusal>(())
//! ```
//!
//! # A stamp a minute out
//!
//! A mistyped stamp is usually close to one that is there. Where find, amend and drop do not find it, the refusal names
//! the nearest ones, for the program and in a sentence for a person.
//!
//! ```
//! # use futtockram::{words_for, Refusal, State, Table};
//! # let mut words = [0; words_for(15)];
//! # let mut table = Table::start(&mut words)?;
//! table.post(480, 1200, State::Poured)?;
//! table.post(510, 900, State::Poured)?;
//! let refusal = table.drop(511).unwrap_err();
//! assert_eq!(refusal, Refusal::KeyAbsent { below: Some(510), above: None });
//! assert_eq!(
//!     refusal.sentence().to_string(),
//!     "There is no record with this key; the nearest before it is 510, and there is none after it."
//! );
//! # Ok::<(), Refusal>(())
//! ```
//!
//! # How a screen tells an old figure
//!
//! What was asked stands in an answer's `is`, beside the `change` number that the table had then. Keep the answer whole
//! and show both: a figure is old once the table's change number is another one.
//!
//! ```
//! # use futtockram::{words_for, Refusal, State, Table};
//! # let mut words = [0; words_for(15)];
//! # let mut table = Table::start(&mut words)?;
//! table.post(480, 1200, State::Poured)?;
//! let noon = table.total(719)?;
//! assert_eq!(format!("{} pieces at change {}", noon.is, noon.change), "1200 pieces at change 1");
//! assert!(noon.is_current(&table)?);
//!
//! table.post(510, 900, State::Poured)?;
//! assert!(!noon.is_current(&table)?); // the screen asks again, or marks the figure as old
//! # Ok::<(), Refusal>(())
//! ```
//!
//! Each table counts its changes for itself, and firings are none: [`Answer::is_current`] says what follows from that.

mod answer;
pub mod layout;
mod raw;
mod reading;
mod records;
mod refusal;
mod table;

pub use answer::{Answer, Found, Record, Rule, Side, State, Tidied};
pub use layout::words_for;
pub use records::Records;
pub use refusal::Refusal;
pub use table::Table;

/// The most slots that a table may have.
pub const MOST_SLOTS: usize = 4_095;
/// The most pieces of one record.
pub const MOST_PIECES: u32 = 1_000_000;
/// The largest height that a register holds.
pub const MOST_HEIGHT: u32 = 65_535;
