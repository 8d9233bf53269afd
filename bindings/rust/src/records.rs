//! The records of a sound table in key order: one walk over the words, with the slots above the way kept aside.

use crate::answer::Record;
use crate::layout::{header, SLOT_WORDS};

/// The records in key order, as [`Table::records`](crate::Table::records) gives them.
#[derive(Clone, Debug)]
pub struct Records<'t> {
    words: &'t [u32],
    /// The slot to go down from, 0 for none.
    below: u32,
    /// The slots that the walk went left at: their records come next, the last one first.
    above: Vec<u32>,
    /// The records still to come.
    left: usize,
}

impl<'t> Records<'t> {
    /// A walk over words that have been checked. Over others it ends as well, after at most as many records as the
    /// header says and as there are slots.
    pub(crate) fn of(words: &'t [u32]) -> Records<'t> {
        let word = |place| words.get(place).copied().unwrap_or(0);
        let left = (word(header::RECORDS) as usize).min(words.len() / SLOT_WORDS);
        Records { words, below: word(header::ROOT), above: Vec::new(), left }
    }
}

impl Iterator for Records<'_> {
    type Item = Record;

    fn next(&mut self) -> Option<Record> {
        // Each slot above is a record still to come, so there are never more of them: a circle of links ends here.
        while self.below != 0 && self.above.len() < self.left {
            self.above.push(self.below);
            self.below = Record::in_slot(self.words, self.below).map_or(0, |record| record.sons[0]);
        }
        let record = Record::in_slot(self.words, self.above.pop()?)?;
        self.left = self.left.saturating_sub(1);
        self.below = record.sons[1];
        Some(record)
    }

    fn size_hint(&self) -> (usize, Option<usize>) {
        (self.left, Some(self.left))
    }
}

impl ExactSizeIterator for Records<'_> {}

#[cfg(test)]
mod tests {
    use super::*;
    use crate::layout::{field, words_for, HEADER_WORDS};

    #[test]
    fn a_walk_over_any_words_ends() {
        let mut words = [0; words_for(3)];
        words[header::ROOT] = 1;
        let links = [(field::LEFT, 1), (field::RIGHT, 1), (field::LEFT, 2), (field::RIGHT, 9), (field::LEFT, u32::MAX)];
        for records in [0, 1, 3, u32::MAX] {
            words[header::RECORDS] = records;
            for (link, son) in links {
                for slot in words[HEADER_WORDS..].chunks_mut(SLOT_WORDS) {
                    (slot[field::STATE], slot[link]) = (1, son);
                }
                let most = records.min(3) as usize;
                assert!(Records::of(&words).take(10).count() <= most, "{records} records, link {link} to {son}");
            }
        }
        words[HEADER_WORDS..].fill(0);
        assert_eq!(Records::of(&words).take(10).count(), 0);
        assert_eq!(Records::of(&[]).count() + Records::of(&words[..1]).count(), 0);
    }
}
