//! The table: a lent slice and the calls on it.

use crate::answer::{Answer, Found, Record, Rule, Side, State, Tidied};
use crate::layout::{header, NUMBERS};
use crate::reading::{accepted, found, nothing, ranked, slot, sum, tidied};
use crate::records::Records;
use crate::{raw, refusal::Refusal};

/// A table in words lent by the caller.
#[derive(Debug)]
pub struct Table<'a> {
    words: &'a mut [u32],
}

/// Makes a call of the library on a live slice: words, the call's own arguments, and room for the five numbers.
macro_rules! call {
    ($name:ident, $words:expr, $pointer:ident $(, $arg:expr)*) => {{
        let mut out = [0; NUMBERS];
        // Sound: pointer and length are of one live slice, lent to be written where the call writes; out has its room.
        unsafe { raw::$name($words.$pointer(), $words.len() $(, $arg)*, out.as_mut_ptr()) };
        out
    }};
}

impl<'a> Table<'a> {
    /// Makes an empty table of the words, all of which become 0. Its change number is 0.
    pub fn start(words: &'a mut [u32]) -> Result<Table<'a>, Refusal> {
        accepted(call!(ftk_start, words, as_mut_ptr), nothing)?;
        Ok(Table { words })
    }

    /// Takes words that hold a table already, if it is sound.
    pub fn open(words: &'a mut [u32]) -> Result<Table<'a>, Refusal> {
        let table = Table { words };
        table.check()?;
        Ok(table)
    }

    /// Takes words as they are. Every call can be made on them; damage that a call meets is refused.
    pub fn unchecked(words: &'a mut [u32]) -> Table<'a> {
        Table { words }
    }

    /// Whether the table is sound: accepted, with the change number of now, exactly if it is.
    pub fn check(&self) -> Result<Answer<()>, Refusal> {
        accepted(call!(ftk_check, self.words, as_ptr), nothing)
    }

    /// The record of a key from 1 up. If it is not there, the refusal names the nearest keys that are, and so it does
    /// for [`amend`](Table::amend) and [`drop`](Table::drop).
    pub fn find(&self, key: u32) -> Result<Answer<Found>, Refusal> {
        accepted(call!(ftk_find, self.words, as_ptr, key), found)
    }

    /// Posts a record with a key from 1 up and 1 to 1,000,000 pieces, as a leaf in the lowest free slot: that slot.
    pub fn post(&mut self, key: u32, pieces: u32, state: State) -> Result<Answer<u32>, Refusal> {
        accepted(call!(ftk_post, self.words, as_mut_ptr, key, pieces, state as u32), slot)
    }

    /// Gives the record of a key other pieces and another state: its slot.
    pub fn amend(&mut self, key: u32, pieces: u32, state: State) -> Result<Answer<u32>, Refusal> {
        accepted(call!(ftk_amend, self.words, as_mut_ptr, key, pieces, state as u32), slot)
    }

    /// Removes the record of a key: the slot freed. It is the next larger record's if the dropped one had two sons.
    pub fn drop(&mut self, key: u32) -> Result<Answer<u32>, Refusal> {
        accepted(call!(ftk_drop, self.words, as_mut_ptr, key), slot)
    }

    /// The slot of the record with the r-th smallest key, r from 1.
    pub fn rank(&self, r: u32) -> Result<Answer<u32>, Refusal> {
        ranked(call!(ftk_rank, self.words, as_ptr, r))
    }

    /// The pieces of all records with a key of at most the given one.
    pub fn total(&self, key: u32) -> Result<Answer<u64>, Refusal> {
        accepted(call!(ftk_total, self.words, as_ptr, key), sum)
    }

    /// How far the table is from balance with true registers.
    pub fn worth(&self) -> Result<Answer<u64>, Refusal> {
        accepted(call!(ftk_worth, self.words, as_ptr), sum)
    }

    /// Fires a rule at the link that a slot holds on one side; holder 0 with the left side is the root link.
    pub fn fire(&mut self, rule: Rule, holder: u32, side: Side) -> Result<Answer<()>, Refusal> {
        accepted(call!(ftk_fire, self.words, as_mut_ptr, rule as u32, holder, side as u32), nothing)
    }

    /// Fires what applies, lowest slot and rule first, at most so many times.
    pub fn tidy(&mut self, budget: u32) -> Result<Answer<Tidied>, Refusal> {
        accepted(call!(ftk_tidy, self.words, as_mut_ptr, budget), tidied)
    }

    /// The records in key order, if the table is sound: one check, then one walk as the records are taken.
    pub fn records(&self) -> Result<Answer<Records<'_>>, Refusal> {
        accepted(call!(ftk_check, self.words, as_ptr), |_| Ok(Records::of(self.words)))
    }

    /// The record in a slot, read from the words as they stand with no check of the table; none if the slot is free or
    /// is not there.
    pub fn record(&self, slot: u32) -> Option<Answer<Record>> {
        Some(Answer { change: *self.words.get(header::CHANGE)?, is: Record::in_slot(self.words, slot)? })
    }

    /// The words as they stand.
    pub fn words(&self) -> &[u32] {
        self.words
    }
}
