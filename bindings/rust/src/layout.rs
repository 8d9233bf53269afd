//! Where each number stands: in the lent words, in a slot, in an answer. A test holds it to the C header.

/// The words before the first slot.
pub const HEADER_WORDS: usize = 4;
/// The words of a slot.
pub const SLOT_WORDS: usize = 8;

/// The number of words of a table with so many slots.
pub const fn words_for(slots: usize) -> usize {
    HEADER_WORDS + SLOT_WORDS * slots
}

/// The words of the header.
pub mod header {
    /// The slot of the root, 0 if the table is empty.
    pub const ROOT: usize = 0;
    /// The number of records.
    pub const RECORDS: usize = 1;
    /// The change number.
    pub const CHANGE: usize = 2;
    /// Always 0.
    pub const ZERO: usize = 3;
}

/// The words of a slot, counted from its first.
pub mod field {
    pub const STATE: usize = 0;
    pub const KEY: usize = 1;
    pub const PIECES: usize = 2;
    pub const LEFT: usize = 3;
    pub const RIGHT: usize = 4;
    pub const LEFTH: usize = 5;
    pub const RIGHTH: usize = 6;
}

/// The numbers of an answer.
pub mod number {
    pub const CODE: usize = 0;
    pub const CHANGE: usize = 1;
    pub const VALUE: usize = 2;
    pub const MORE: usize = 3;
    pub const KIND: usize = 4;
}

/// How many numbers an answer has.
pub const NUMBERS: usize = 5;

/// The words of a slot, which counts from 1; none if there is no such slot.
pub fn slot_words(words: &[u32], slot: u32) -> Option<&[u32; SLOT_WORDS]> {
    let before = usize::try_from(slot).ok()?.checked_sub(1)?.checked_mul(SLOT_WORDS)?;
    words.get(HEADER_WORDS..)?.get(before..)?.first_chunk()
}
