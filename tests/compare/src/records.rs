//! start, check, find, post, amend and drop as document 01 states them, with what a miss names as document 02 does.

use crate::paper::*;

/// The five numbers: code, change, value, more, kind.
pub type Answer = [u64; 5];

/// A refusal.
pub fn refuse(code: u64) -> Answer {
    [code, 0, 0, 0, 0]
}

/// An accepted call on the table as it stands afterwards.
pub fn accept(words: &[u32], value: u64, more: u64, kind: u64) -> Answer {
    [0, u64::from(words[CHANGE]), value, more, kind]
}

/// Where a search ended: at a record or at an empty link, with the link it came by, the slots visited and the keys that
/// were passed on the way to the sought one, in their order.
pub struct Way {
    pub slot: usize,
    pub holder: usize,
    pub side: usize,
    pub visits: usize,
    passed: Vec<u32>,
}

impl Way {
    /// Visits the slot at hand: false if that is one visit too many or the slot is not fit.
    fn visit(&mut self, words: &[u32], slots: usize) -> bool {
        self.visits += 1;
        self.visits <= slots && is_fit(words, slots, self.slot)
    }

    /// Goes down on one side.
    fn go(&mut self, words: &[u32], side: usize) {
        (self.holder, self.side) = (self.slot, side);
        self.slot = link(words, self.slot, side);
    }

    /// The refusal of an absent key: it names the last smaller and the last larger one of the keys passed.
    fn miss(&self, key: u32) -> Answer {
        let smaller = self.passed.iter().rfind(|&&passed| passed < key);
        let larger = self.passed.iter().rfind(|&&passed| passed > key);
        let named = |found: Option<&u32>| found.map_or(0, |&passed| u64::from(passed));
        [KEY_ABSENT, 0, named(smaller), named(larger), 0]
    }
}

/// Walks from the root to a key or to the empty link where it would be; none if the walk meets damage.
fn walk(words: &[u32], slots: usize, key: u32) -> Option<Way> {
    if !header_good(words, slots) {
        return None;
    }
    let mut way = Way { slot: words[ROOT] as usize, holder: 0, side: 0, visits: 0, passed: Vec::new() };
    while way.slot != 0 {
        if !way.visit(words, slots) {
            return None;
        }
        let here = get(words, way.slot, KEY);
        if here == key {
            return Some(way);
        }
        way.passed.push(here);
        way.go(words, usize::from(key > here));
    }
    Some(way)
}

pub fn start(words: &mut [u32]) -> Answer {
    if slots_of(words.len()).is_none() {
        return refuse(WRONG_LENGTH);
    }
    words.fill(0);
    accept(words, 0, 0, 0)
}

pub fn check(words: &[u32]) -> Answer {
    match slots_of(words.len()) {
        None => refuse(WRONG_LENGTH),
        Some(slots) if !is_sound(words, slots) => refuse(DAMAGED),
        Some(_) => accept(words, 0, 0, 0),
    }
}

pub fn find(words: &[u32], key: u32) -> Answer {
    let Some(slots) = slots_of(words.len()) else { return refuse(WRONG_LENGTH) };
    if key == 0 {
        return refuse(OUT_OF_RANGE);
    }
    match walk(words, slots, key) {
        None => refuse(DAMAGED),
        Some(way) if way.slot == 0 => way.miss(key),
        Some(way) => {
            let field = |f| u64::from(get(words, way.slot, f));
            accept(words, field(PIECES), way.visits as u64, field(STATE))
        }
    }
}

/// Test 2 of post and amend.
fn record_in_range(key: u32, pieces: u32, state: u32) -> bool {
    key != 0 && (1..=MOST_PIECES).contains(&pieces) && (1..=2).contains(&state)
}

pub fn post(words: &mut [u32], key: u32, pieces: u32, state: u32) -> Answer {
    let Some(slots) = slots_of(words.len()) else { return refuse(WRONG_LENGTH) };
    if !record_in_range(key, pieces, state) {
        return refuse(OUT_OF_RANGE);
    }
    let Some(way) = walk(words, slots, key) else { return refuse(DAMAGED) };
    if way.slot != 0 {
        return refuse(KEY_PRESENT);
    }
    let Some(free) = (1..=slots).find(|&k| get(words, k, STATE) == 0) else { return refuse(NO_FREE_SLOT) };
    if !is_blank(words, free) || words[RECORDS] as usize == slots {
        return refuse(DAMAGED);
    }
    if words[CHANGE] == u32::MAX {
        return refuse(LAST_CHANGE);
    }
    words[place(free, STATE)] = state;
    words[place(free, KEY)] = key;
    words[place(free, PIECES)] = pieces;
    words[link_place(way.holder, way.side)] = free as u32;
    words[RECORDS] += 1;
    words[CHANGE] += 1;
    accept(words, free as u64, 0, 0)
}

pub fn amend(words: &mut [u32], key: u32, pieces: u32, state: u32) -> Answer {
    let Some(slots) = slots_of(words.len()) else { return refuse(WRONG_LENGTH) };
    if !record_in_range(key, pieces, state) {
        return refuse(OUT_OF_RANGE);
    }
    let Some(way) = walk(words, slots, key) else { return refuse(DAMAGED) };
    if way.slot == 0 {
        return way.miss(key);
    }
    if words[CHANGE] == u32::MAX {
        return refuse(LAST_CHANGE);
    }
    words[place(way.slot, STATE)] = state;
    words[place(way.slot, PIECES)] = pieces;
    words[CHANGE] += 1;
    accept(words, way.slot as u64, 0, 0)
}

/// A link takes the son that hung below it; the register beside it becomes 0 where it is left empty.
fn hang(words: &mut [u32], holder: usize, side: usize, son: usize) {
    words[link_place(holder, side)] = son as u32;
    if son == 0 && holder != 0 {
        words[place(holder, HEIGHT[side])] = 0;
    }
}

pub fn drop(words: &mut [u32], key: u32) -> Answer {
    let Some(slots) = slots_of(words.len()) else { return refuse(WRONG_LENGTH) };
    if key == 0 {
        return refuse(OUT_OF_RANGE);
    }
    let Some(mut way) = walk(words, slots, key) else { return refuse(DAMAGED) };
    let record = way.slot;
    if record == 0 {
        return way.miss(key);
    }
    let sons = [link(words, record, 0), link(words, record, 1)];
    let two = sons[0] != 0 && sons[1] != 0;
    if two {
        way.go(words, 1);
        loop {
            if !way.visit(words, slots) {
                return refuse(DAMAGED);
            }
            if link(words, way.slot, 0) == 0 {
                break;
            }
            way.go(words, 0);
        }
    }
    if words[RECORDS] == 0 {
        return refuse(DAMAGED);
    }
    if words[CHANGE] == u32::MAX {
        return refuse(LAST_CHANGE);
    }
    if two {
        for field in [STATE, KEY, PIECES] {
            words[place(record, field)] = get(words, way.slot, field);
        }
        let son = link(words, way.slot, 1);
        hang(words, way.holder, way.side, son);
    } else {
        hang(words, way.holder, way.side, if sons[0] != 0 { sons[0] } else { sons[1] });
    }
    blank(words, way.slot);
    words[RECORDS] -= 1;
    words[CHANGE] += 1;
    accept(words, way.slot as u64, 0, 0)
}
