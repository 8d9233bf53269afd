//! find, post and drop in plain Rust: one walk that tests each visited slot, then the stated writes.

use crate::words::*;
use std::hint::select_unpredictable;

/// Where a walk ended: at a record or, with slot 0, at the empty link where it would hang; and the last keys passed that
/// are smaller and larger than the sought one, 0 for none.
struct Way {
    slot: usize,
    holder: usize,
    side: usize,
    visits: usize,
    smaller: u32,
    larger: u32,
}

/// Walks from the root to a key; none if the walk meets damage. Each slot is asked where it leads before it is tested, as
/// in ours: the processor can then read the next one meanwhile. A find that calls it, instead of holding it, takes a tenth
/// more.
#[inline(always)]
fn walk(slots: &[Slot], root: u32, key: u32) -> Option<Way> {
    let mut way = Way { slot: root as usize, holder: 0, side: LEFT, visits: 0, smaller: 0, larger: 0 };
    if way.slot == 0 {
        return Some(way);
    }
    loop {
        way.visits += 1;
        let s = &slots[way.slot - 1];
        let left = key < s[KEY];
        let side = if left { LEFT } else { RIGHT };
        let next = select_unpredictable(left, s[LEFT], s[RIGHT]) as usize;
        way.smaller = select_unpredictable(left, way.smaller, s[KEY]);
        way.larger = select_unpredictable(left, s[KEY], way.larger);
        if s[KEY] == key || next == 0 {
            if !fit(s, slots.len()) {
                return None;
            }
            if s[KEY] == key {
                return Some(way);
            }
            return Some(Way { slot: 0, holder: way.slot, side, ..way });
        }
        if way.visits == slots.len() || !fit(s, slots.len()) {
            return None;
        }
        (way.holder, way.side, way.slot) = (way.slot, side, next);
    }
}

pub fn find(words: &[u32], key: u32) -> Answer {
    let Some((header, slots)) = parts(words) else { return refuse(WRONG_LENGTH) };
    if key == 0 {
        return refuse(OUT_OF_RANGE);
    }
    if !header_good(header, slots.len()) {
        return refuse(DAMAGED);
    }
    match walk(slots, header[ROOT], key) {
        None => refuse(DAMAGED),
        Some(way) if way.slot == 0 => miss(way.smaller, way.larger),
        Some(way) => {
            let s = &slots[way.slot - 1];
            accept(header, s[PIECES].into(), way.visits as u64, s[STATE].into())
        }
    }
}

/// Writes a slot's number at a link; holder 0 is the root's.
#[inline]
fn put_link(header: &mut Header, slots: &mut [Slot], holder: usize, side: usize, son: u32) {
    match holder {
        0 => header[ROOT] = son,
        _ => slots[holder - 1][side] = son,
    }
}

/// The lowest free slot, counted from 0. Inside post the same loop takes twice as long.
#[inline(never)]
fn free_slot(slots: &[Slot]) -> Option<usize> {
    slots.iter().position(|s| s[STATE] == 0)
}

pub fn post(words: &mut [u32], key: u32, pieces: u32, state: u32) -> Answer {
    let Some((header, slots)) = parts_mut(words) else { return refuse(WRONG_LENGTH) };
    if key == 0 || pieces.wrapping_sub(1) >= MOST_PIECES || state.wrapping_sub(1) >= 2 {
        return refuse(OUT_OF_RANGE);
    }
    if !header_good(header, slots.len()) {
        return refuse(DAMAGED);
    }
    let Some(way) = walk(slots, header[ROOT], key) else { return refuse(DAMAGED) };
    if way.slot != 0 {
        return refuse(KEY_PRESENT);
    }
    let Some(free) = free_slot(slots) else { return refuse(NO_FREE_SLOT) };
    if !blank(&slots[free]) || header[RECORDS] as usize == slots.len() {
        return refuse(DAMAGED);
    }
    if header[CHANGE] == u32::MAX {
        return refuse(LAST_CHANGE);
    }
    slots[free] = leaf(state, key, pieces);
    put_link(header, slots, way.holder, way.side, free as u32 + 1);
    header[RECORDS] += 1;
    header[CHANGE] += 1;
    accept(header, free as u64 + 1, 0, 0)
}

pub fn drop(words: &mut [u32], key: u32) -> Answer {
    let Some((header, slots)) = parts_mut(words) else { return refuse(WRONG_LENGTH) };
    if key == 0 {
        return refuse(OUT_OF_RANGE);
    }
    if !header_good(header, slots.len()) {
        return refuse(DAMAGED);
    }
    let Some(mut way) = walk(slots, header[ROOT], key) else { return refuse(DAMAGED) };
    if way.slot == 0 {
        return miss(way.smaller, way.larger);
    }
    let record = way.slot;
    let [_, _, _, left, right, ..] = slots[record - 1];
    let two = left != 0 && right != 0;
    if two {
        (way.holder, way.side, way.slot) = (record, RIGHT, right as usize);
        loop {
            if way.visits == slots.len() {
                return refuse(DAMAGED);
            }
            way.visits += 1;
            let s = &slots[way.slot - 1];
            if !fit(s, slots.len()) {
                return refuse(DAMAGED);
            }
            if s[LEFT] == 0 {
                break;
            }
            (way.holder, way.side, way.slot) = (way.slot, LEFT, s[LEFT] as usize);
        }
    }
    if header[RECORDS] == 0 {
        return refuse(DAMAGED);
    }
    if header[CHANGE] == u32::MAX {
        return refuse(LAST_CHANGE);
    }
    let least = slots[way.slot - 1];
    let son = if two { least[RIGHT] } else { left | right };
    if two {
        slots[record - 1][..LEFT].copy_from_slice(&least[..LEFT]);
    }
    put_link(header, slots, way.holder, way.side, son);
    if son == 0 && way.holder != 0 {
        slots[way.holder - 1][way.side + (LEFTH - LEFT)] = 0;
    }
    slots[way.slot - 1] = [0; SLOT_WORDS];
    header[RECORDS] -= 1;
    header[CHANGE] += 1;
    accept(header, way.slot as u64, 0, 0)
}
