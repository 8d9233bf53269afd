//! The lent words as document 01 lays them out, for the plain Rust contestants.

pub const MOST_SLOTS: usize = 4_095;
pub const MOST_PIECES: u32 = 1_000_000;
pub const MOST_HEIGHT: u32 = 65_535;

/// The words of the header and of a slot.
pub const HEADER_WORDS: usize = 4;
pub const SLOT_WORDS: usize = 8;

/// A slot, and the places of its words.
pub type Slot = [u32; SLOT_WORDS];
pub const STATE: usize = 0;
pub const KEY: usize = 1;
pub const PIECES: usize = 2;
pub const LEFT: usize = 3;
pub const RIGHT: usize = 4;
pub const LEFTH: usize = 5;
pub const RIGHTH: usize = 6;
pub const LAST: usize = 7;

/// The five numbers: code, change, value, more, kind.
pub type Answer = [u64; 5];

/// The codes of refusals.
pub const WRONG_LENGTH: u64 = 1;
pub const OUT_OF_RANGE: u64 = 2;
pub const DAMAGED: u64 = 3;
pub const KEY_PRESENT: u64 = 4;
pub const KEY_ABSENT: u64 = 5;
pub const NO_FREE_SLOT: u64 = 6;
pub const LAST_CHANGE: u64 = 7;

/// The header's words.
pub const ROOT: usize = 0;
pub const RECORDS: usize = 1;
pub const CHANGE: usize = 2;
pub const ZERO: usize = 3;
pub type Header = [u32; HEADER_WORDS];

/// How many words so many slots take.
pub const fn length(slots: usize) -> usize {
    HEADER_WORDS + SLOT_WORDS * slots
}

/// The header and the slots, if the words are as many as a table's.
pub fn parts(words: &[u32]) -> Option<(&Header, &[Slot])> {
    let (header, rest) = words.split_first_chunk::<HEADER_WORDS>()?;
    let (slots, over) = rest.as_chunks::<SLOT_WORDS>();
    (over.is_empty() && (1..=MOST_SLOTS).contains(&slots.len())).then_some((header, slots))
}

/// The same, to be written.
pub fn parts_mut(words: &mut [u32]) -> Option<(&mut Header, &mut [Slot])> {
    let (header, rest) = words.split_first_chunk_mut::<HEADER_WORDS>()?;
    let (slots, over) = rest.as_chunks_mut::<SLOT_WORDS>();
    (over.is_empty() && (1..=MOST_SLOTS).contains(&slots.len())).then_some((header, slots))
}

pub fn header_good(header: &Header, slots: usize) -> bool {
    header[ROOT] as usize <= slots && header[RECORDS] as usize <= slots && header[ZERO] == 0
}

/// A link and the register beside it, which is 0 beside an empty link.
#[inline]
fn side_fit(link: u32, height: u32, slots: usize) -> bool {
    link as usize <= slots && height <= if link == 0 { 0 } else { MOST_HEIGHT }
}

/// A slot that can hold a record in a table of `slots` slots.
#[inline]
pub fn fit(s: &Slot, slots: usize) -> bool {
    s[STATE].wrapping_sub(1) < 2
        && s[KEY] != 0
        && s[PIECES].wrapping_sub(1) < MOST_PIECES
        && side_fit(s[LEFT], s[LEFTH], slots)
        && side_fit(s[RIGHT], s[RIGHTH], slots)
        && s[LAST] == 0
}

/// A new leaf.
#[inline]
pub fn leaf(state: u32, key: u32, pieces: u32) -> Slot {
    let mut s = [0; SLOT_WORDS];
    (s[STATE], s[KEY], s[PIECES]) = (state, key, pieces);
    s
}

pub fn blank(s: &Slot) -> bool {
    *s == [0; SLOT_WORDS]
}

pub fn refuse(code: u64) -> Answer {
    [code, 0, 0, 0, 0]
}

/// The refusal of an absent key, with its neighbours.
pub fn miss(smaller: u32, larger: u32) -> Answer {
    [KEY_ABSENT, 0, smaller.into(), larger.into(), 0]
}

/// An accepted call that leaves this header.
pub fn accept(header: &Header, value: u64, more: u64, kind: u64) -> Answer {
    [0, u64::from(header[CHANGE]), value, more, kind]
}
