//! The lent words as document 01 describes them: slots, fitness, the header and soundness.

pub const MOST_SLOTS: usize = 4_095;
pub const MOST_PIECES: u32 = 1_000_000;
pub const MOST_HEIGHT: u32 = 65_535;

/// The words before the first slot, and the words of a slot.
pub const HEADER_WORDS: usize = 4;
pub const SLOT_WORDS: usize = 8;

/// The places of the words before the first slot.
pub const ROOT: usize = 0;
pub const RECORDS: usize = 1;
pub const CHANGE: usize = 2;
pub const ZERO: usize = 3;

/// The places of a slot's words, counted from its first.
pub const STATE: usize = 0;
pub const KEY: usize = 1;
pub const PIECES: usize = 2;
pub const LINK: [usize; 2] = [3, 4];
pub const HEIGHT: [usize; 2] = [5, 6];
pub const LAST: usize = 7;

/// The codes of refusals.
pub const WRONG_LENGTH: u64 = 1;
pub const OUT_OF_RANGE: u64 = 2;
pub const DAMAGED: u64 = 3;
pub const KEY_PRESENT: u64 = 4;
pub const KEY_ABSENT: u64 = 5;
pub const NO_FREE_SLOT: u64 = 6;
pub const LAST_CHANGE: u64 = 7;
pub const GUARD_FAILS: u64 = 8;
pub const TOO_HIGH: u64 = 9;
pub const UNREADABLE: u64 = 10;

/// How many words so many slots take.
pub const fn length_of(slots: usize) -> usize {
    HEADER_WORDS + SLOT_WORDS * slots
}

/// How many whole slots so many words have room for.
pub fn room(length: usize) -> usize {
    length.saturating_sub(HEADER_WORDS) / SLOT_WORDS
}

/// How many slots so many words hold, if that is a table's length.
pub fn slots_of(length: usize) -> Option<usize> {
    let slots = room(length);
    (length == length_of(slots) && (1..=MOST_SLOTS).contains(&slots)).then_some(slots)
}

/// The place of a word of slot `k`, which counts from 1.
pub fn place(k: usize, field: usize) -> usize {
    length_of(k - 1) + field
}

/// A word of slot `k`.
pub fn get(words: &[u32], k: usize, field: usize) -> u32 {
    words[place(k, field)]
}

/// The slot that a link names: the root's for holder 0, else the holder's on that side.
pub fn link(words: &[u32], holder: usize, side: usize) -> usize {
    words[link_place(holder, side)] as usize
}

/// The place of a link.
pub fn link_place(holder: usize, side: usize) -> usize {
    if holder == 0 {
        ROOT
    } else {
        place(holder, LINK[side])
    }
}

/// All words of a slot are zero.
pub fn is_blank(words: &[u32], k: usize) -> bool {
    words[place(k, 0)..place(k, SLOT_WORDS)].iter().all(|&word| word == 0)
}

/// Writes a zero to all words of a slot.
pub fn blank(words: &mut [u32], k: usize) {
    words[place(k, 0)..place(k, SLOT_WORDS)].fill(0);
}

/// A slot that can hold a record in a table of `slots` slots.
pub fn is_fit(words: &[u32], slots: usize, k: usize) -> bool {
    let field = |f| get(words, k, f);
    let side_fit = |side: usize| {
        let (son, height) = (field(LINK[side]), field(HEIGHT[side]));
        son as usize <= slots && height <= MOST_HEIGHT && (son != 0 || height == 0)
    };
    (1..=2).contains(&field(STATE))
        && field(KEY) >= 1
        && (1..=MOST_PIECES).contains(&field(PIECES))
        && side_fit(0)
        && side_fit(1)
        && field(LAST) == 0
}

/// Words 0, 1 and 3 are in order.
pub fn header_good(words: &[u32], slots: usize) -> bool {
    words[ROOT] as usize <= slots && words[RECORDS] as usize <= slots && words[ZERO] == 0
}

/// The table is sound: every slot is looked at with the open range that the way to it leaves for its key.
pub fn is_sound(words: &[u32], slots: usize) -> bool {
    if !header_good(words, slots) {
        return false;
    }
    let mut reached = vec![false; slots + 1];
    let mut count = 0;
    let mut waiting = vec![(words[ROOT] as usize, -1i64, i64::MAX)];
    while let Some((k, above, below)) = waiting.pop() {
        if k == 0 {
            continue;
        }
        let key = i64::from(get(words, k, KEY));
        if reached[k] || !is_fit(words, slots, k) || key <= above || key >= below {
            return false;
        }
        reached[k] = true;
        count += 1;
        waiting.push((link(words, k, 0), above, key));
        waiting.push((link(words, k, 1), key, below));
    }
    count == words[RECORDS] && (1..=slots).all(|k| reached[k] || is_blank(words, k))
}

/// The slots of a sound table in key order.
pub fn in_order(words: &[u32]) -> Vec<usize> {
    let (mut order, mut above) = (Vec::new(), Vec::new());
    let mut k = words[ROOT] as usize;
    while k != 0 || !above.is_empty() {
        while k != 0 {
            above.push(k);
            k = link(words, k, 0);
        }
        k = above.pop().unwrap_or(0);
        order.push(k);
        k = link(words, k, 1);
    }
    order
}

/// The slots of a sound table, each after the one that holds its link, with that holder and side.
pub fn downward(words: &[u32]) -> Vec<(usize, usize, usize)> {
    let mut order = Vec::new();
    let mut waiting = vec![(words[ROOT] as usize, 0, 0)];
    while let Some((k, holder, side)) = waiting.pop() {
        if k != 0 {
            order.push((k, holder, side));
            waiting.push((link(words, k, 0), k, 0));
            waiting.push((link(words, k, 1), k, 1));
        }
    }
    order
}
