//! What calls are given and what they answer: states, sides, rules, and each answer with its change number.

use crate::layout::{field, slot_words};
use crate::refusal::Refusal;
use crate::table::Table;

/// An accepted answer: what was asked, and the change number behind it.
///
/// A figure that is kept or shown goes with its change number; [`is_current`](Answer::is_current) tells an old one. The
/// answer is no number that could be taken for the figure alone:
///
/// ```compile_fail
/// # fn noon(table: &futtockram::Table) -> Result<(), futtockram::Refusal> {
/// let pieces: u64 = table.total(719)?;
/// # Ok(())
/// # }
/// ```
#[derive(Clone, Copy, Debug, PartialEq, Eq)]
pub struct Answer<T> {
    /// How many posts, amendments and drops the table had accepted, this call counted, since it was started.
    pub change: u32,
    /// What was asked.
    pub is: T,
}

impl<T> Answer<T> {
    /// Whether the table has accepted no post, amendment or drop since this answer. Refused if the table is not sound:
    /// then no figure of it should be shown as a live one.
    ///
    /// Ask the table that gave the answer: each table counts for itself, and one that is started again counts from 0.
    /// Firings do not move the change number. They keep every record in its slot with its key, pieces and state, so
    /// ranks and totals stand; but they move the worth, the visits of a find, and the sons and registers of records.
    pub fn is_current(&self, table: &Table) -> Result<bool, Refusal> {
        Ok(table.check()?.change == self.change)
    }
}

/// What a record says of its batch.
#[derive(Clone, Copy, Debug, PartialEq, Eq, Hash)]
#[repr(u32)]
pub enum State {
    Poured = 1,
    Remelt = 2,
}

impl State {
    /// The state of a slot's first word; none if the slot is free or the word is no state.
    pub fn from_word(word: u64) -> Option<State> {
        match word {
            1 => Some(State::Poured),
            2 => Some(State::Remelt),
            _ => None,
        }
    }
}

/// The side of a link below its holder.
#[derive(Clone, Copy, Debug, PartialEq, Eq, Hash)]
#[repr(u32)]
pub enum Side {
    Left = 0,
    Right = 1,
}

/// The eight rules. Odd ones work on the left son of the upper record, even ones on the right son.
#[derive(Clone, Copy, Debug, PartialEq, Eq, Hash)]
#[repr(u32)]
pub enum Rule {
    /// LP: brings the left register up to date.
    LeftRegister = 1,
    /// RP: brings the right register up to date.
    RightRegister = 2,
    /// RR*: right rotation, the left son leaning left.
    RotateRight = 3,
    /// LR*: left rotation, the right son leaning right.
    RotateLeft = 4,
    /// RR=: right rotation, the left son leaning nowhere.
    RotateRightEven = 5,
    /// LR=: left rotation, the right son leaning nowhere.
    RotateLeftEven = 6,
    /// LRR: double rotation, the left son leaning right.
    RotateLeftRight = 7,
    /// RLR: double rotation, the right son leaning left.
    RotateRightLeft = 8,
}

impl Rule {
    /// Every rule, in the order of the numbers.
    pub const ALL: [Rule; 8] = [
        Rule::LeftRegister,
        Rule::RightRegister,
        Rule::RotateRight,
        Rule::RotateLeft,
        Rule::RotateRightEven,
        Rule::RotateLeftEven,
        Rule::RotateLeftRight,
        Rule::RotateRightLeft,
    ];
}

/// A record that was found.
#[derive(Clone, Copy, Debug, PartialEq, Eq)]
pub struct Found {
    pub pieces: u32,
    pub state: State,
    /// The slots visited on the way, the found one counted.
    pub visits: u32,
}

/// What tidy has done.
#[derive(Clone, Copy, Debug, PartialEq, Eq)]
pub struct Tidied {
    /// The firings made.
    pub firings: u32,
    /// No rule applies any longer.
    pub quiet: bool,
}

/// The words of a slot that holds a record.
#[derive(Clone, Copy, Debug, PartialEq, Eq)]
pub struct Record {
    pub slot: u32,
    pub state: State,
    pub key: u32,
    pub pieces: u32,
    /// The slots of the left and the right son, 0 for none.
    pub sons: [u32; 2],
    /// The heights that the record believes its sons to have.
    pub registers: [u32; 2],
}

impl Record {
    /// The record in a slot; none if the slot is free or is not there.
    pub(crate) fn in_slot(words: &[u32], slot: u32) -> Option<Record> {
        let words = slot_words(words, slot)?;
        Some(Record {
            slot,
            state: State::from_word(words[field::STATE].into())?,
            key: words[field::KEY],
            pieces: words[field::PIECES],
            sons: [words[field::LEFT], words[field::RIGHT]],
            registers: [words[field::LEFTH], words[field::RIGHTH]],
        })
    }
}
