//! Why a call was refused, with a sentence for a person.

use crate::layout::{number, NUMBERS};
use std::fmt;

/// A refusal. Names and codes are those of the crates, of the C interface and of the program `stand`; the last three
/// are the wrapper's own: one for rank, whose code 5 is of no key, and two for a library that is not of its edition.
#[derive(Clone, Copy, Debug, PartialEq, Eq, Hash)]
#[non_exhaustive]
pub enum Refusal {
    /// Code 1: the lent words are no table's length.
    WrongLength,
    /// Code 2: a number handed to the call is outside its range.
    OutOfRange,
    /// Code 3: the words are not those of a sound table.
    Damaged,
    /// Code 4: the key to be posted is there already.
    KeyPresent,
    /// Code 5 of find, amend and drop: there is no record of that key. No other call gives it.
    ///
    /// On a table that is damaged but whose way comes to an end, `below` and `above` are the last keys passed on each
    /// side: nearer ones may be there. [`Table::check`](crate::Table::check) tells whether the table is sound.
    KeyAbsent {
        /// The nearest smaller key that is there; none if there is no smaller one.
        below: Option<u32>,
        /// The nearest larger key that is there; none if there is no larger one.
        above: Option<u32>,
    },
    /// Code 6: no slot is free for the record to be posted.
    NoFreeSlot,
    /// Code 7: the change number has reached its limit.
    LastChange,
    /// Code 8: the rule's guard fails at that link.
    GuardFails,
    /// Code 9: the firing would write a height above the limit.
    TooHigh,
    /// Code 10: the program could not read the line. No call of the library gives this one.
    Unreadable,
    /// Code 5 of rank: there are fewer records than this rank.
    RankAbsent,
    /// The library refused with a code that the wrapper does not know, or with code 5 and a nearest key that cannot be
    /// one, being above 4,294,967,295. As after every refusal, the table is what it was.
    Unknown(u64),
    /// The library accepted the call, but the wrapper cannot understand a number of its answer. Unlike after a refusal,
    /// the table may have been changed.
    Misread(u64),
}

impl Refusal {
    /// Every refusal that has a code of its own, in the order of the codes from 1 on; `KeyAbsent` as an empty table
    /// gives it.
    pub const ALL: [Refusal; 10] = [
        Refusal::WrongLength,
        Refusal::OutOfRange,
        Refusal::Damaged,
        Refusal::KeyPresent,
        Refusal::KeyAbsent { below: None, above: None },
        Refusal::NoFreeSlot,
        Refusal::LastChange,
        Refusal::GuardFails,
        Refusal::TooHigh,
        Refusal::Unreadable,
    ];

    /// The refusal that the five numbers of an answer tell; none if the call was accepted. They do not say which call
    /// gave them: code 5 is read as one of find, amend and drop, never as one of rank.
    pub fn from_numbers(numbers: &[u64; NUMBERS]) -> Option<Refusal> {
        let code = numbers[number::CODE];
        let known = match Refusal::ALL.into_iter().find(|refusal| refusal.code() == code) {
            Some(Refusal::KeyAbsent { .. }) => Refusal::between(numbers[number::VALUE], numbers[number::MORE]),
            other => other,
        };
        known.or((code != 0).then_some(Refusal::Unknown(code)))
    }

    /// A key that is not there, between two that are, 0 for none; nothing if one of the two is above every key.
    fn between(below: u64, above: u64) -> Option<Refusal> {
        let key = |number| Some((number != 0).then_some(u32::try_from(number).ok()?));
        Some(Refusal::KeyAbsent { below: key(below)?, above: key(above)? })
    }

    /// The library's code. It is 0 for an accepted call whose answer could not be understood.
    pub fn code(self) -> u64 {
        match self {
            Refusal::WrongLength => 1,
            Refusal::OutOfRange => 2,
            Refusal::Damaged => 3,
            Refusal::KeyPresent => 4,
            Refusal::KeyAbsent { .. } | Refusal::RankAbsent => 5,
            Refusal::NoFreeSlot => 6,
            Refusal::LastChange => 7,
            Refusal::GuardFails => 8,
            Refusal::TooHigh => 9,
            Refusal::Unreadable => 10,
            Refusal::Unknown(code) => code,
            Refusal::Misread(_) => 0,
        }
    }

    /// What has happened, in a sentence for a person: it is written where it is shown.
    pub fn sentence(self) -> impl fmt::Display {
        Sentence(self)
    }
}

/// A refusal as its sentence alone, without the code.
struct Sentence(Refusal);

impl fmt::Display for Sentence {
    fn fmt(&self, out: &mut fmt::Formatter) -> fmt::Result {
        out.write_str(match self.0 {
            Refusal::WrongLength => "The lent memory is no table: its length is not that of 1 to 4,095 slots.",
            Refusal::OutOfRange => "One of the numbers is out of range; nothing was changed.",
            Refusal::Damaged => "The table is damaged: stop using it and restore the last good copy.",
            Refusal::KeyPresent => "A record with this key is there already; amend it instead of posting it again.",
            Refusal::KeyAbsent { below, above } => return no_record(out, below, above),
            Refusal::NoFreeSlot => "The table is full: drop a record or move to a table with more slots.",
            Refusal::LastChange => "The table has counted all the changes it can; copy its records to a fresh table.",
            Refusal::GuardFails => "The rule does not apply at this place as the table stands.",
            Refusal::TooHigh => "The height would be above 65,535; bring the registers below up to date first.",
            Refusal::Unreadable => "The line could not be read; check its fields, their order and the single spaces.",
            Refusal::RankAbsent => "There are fewer records than this rank.",
            Refusal::Unknown(_) => "The call was refused for a reason that this program does not know; update it.",
            Refusal::Misread(_) => {
                "The call was accepted, but this program cannot read the answer; update it and check the table."
            }
        })
    }
}

/// The sentence for a key that is not there: which keys are nearest.
fn no_record(out: &mut fmt::Formatter, below: Option<u32>, above: Option<u32>) -> fmt::Result {
    out.write_str("There is no record with this key; ")?;
    match (below, above) {
        (Some(below), Some(above)) => {
            write!(out, "the nearest before it is {below} and the nearest after it is {above}.")
        }
        (Some(below), None) => write!(out, "the nearest before it is {below}, and there is none after it."),
        (None, Some(above)) => write!(out, "the nearest after it is {above}, and there is none before it."),
        (None, None) => out.write_str("there is none before it and none after it."),
    }
}

impl fmt::Display for Refusal {
    fn fmt(&self, out: &mut fmt::Formatter) -> fmt::Result {
        write!(out, "{} (code {}", self.sentence(), self.code())?;
        match self {
            Refusal::Misread(number) => write!(out, ", number {number})"),
            _ => write!(out, ")"),
        }
    }
}

impl std::error::Error for Refusal {}
