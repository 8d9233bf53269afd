//! rank, total and worth in plain Rust: the soundness check first, then one pass for the number.

use super::sound::sound;
use crate::words::*;

/// The slot of the r-th smallest key, by a walk in key order that stops there.
fn ranked(slots: &[Slot], root: u32, r: u32) -> u32 {
    let mut above = [0u16; MOST_SLOTS];
    let (mut depth, mut k, mut left) = (0, root, r);
    loop {
        while k != 0 {
            above[depth] = k as u16;
            depth += 1;
            k = slots[k as usize - 1][LEFT];
        }
        depth -= 1;
        k = above[depth].into();
        left -= 1;
        if left == 0 {
            return k;
        }
        k = slots[k as usize - 1][RIGHT];
    }
}

pub fn rank(words: &[u32], r: u32) -> Answer {
    let Some((header, slots)) = parts(words) else { return refuse(WRONG_LENGTH) };
    if r == 0 {
        return refuse(OUT_OF_RANGE);
    }
    if !sound(header, slots) {
        return refuse(DAMAGED);
    }
    if r > header[RECORDS] {
        return refuse(KEY_ABSENT);
    }
    accept(header, ranked(slots, header[ROOT], r).into(), 0, 0)
}

pub fn total(words: &[u32], key: u32) -> Answer {
    let Some((header, slots)) = parts(words) else { return refuse(WRONG_LENGTH) };
    if !sound(header, slots) {
        return refuse(DAMAGED);
    }
    // A free slot of a sound table has no pieces, so its key 0 adds nothing.
    let sum = slots.iter().map(|s| if s[KEY] <= key { u64::from(s[PIECES]) } else { 0 }).sum();
    accept(header, sum, 0, 0)
}

/// The pieces of all records at link k with a key of at most `key`, by a walk of both sides.
fn sum_under(slots: &[Slot], k: u32, key: u32) -> u64 {
    if k == 0 {
        return 0;
    }
    let s = &slots[k as usize - 1];
    let own = if s[KEY] <= key { u64::from(s[PIECES]) } else { 0 };
    own + sum_under(slots, s[LEFT], key) + sum_under(slots, s[RIGHT], key)
}

/// total in the form that ours has: the tree walked, instead of the slots read in a row.
pub fn total_walking(words: &[u32], key: u32) -> Answer {
    let Some((header, slots)) = parts(words) else { return refuse(WRONG_LENGTH) };
    if !sound(header, slots) {
        return refuse(DAMAGED);
    }
    accept(header, sum_under(slots, header[ROOT], key), 0, 0)
}

/// How many slots hang at a link, and what they weigh, of n slots in all, with a register above them.
#[inline]
fn weigh(slots: &[Slot], k: u32, n: u64, register: u64) -> (u64, u64) {
    match k {
        0 => (0, 0),
        _ => weigh_slot(slots, k, n, register),
    }
}

/// The same where there is a slot.
fn weigh_slot(slots: &[Slot], k: u32, n: u64, register: u64) -> (u64, u64) {
    let s = &slots[k as usize - 1];
    let (lefth, righth) = (u64::from(s[LEFTH]), u64::from(s[RIGHTH]));
    let (left, left_weight) = weigh(slots, s[LEFT], n, lefth);
    let (right, right_weight) = weigh(slots, s[RIGHT], n, righth);
    let size = 1 + left + right;
    let local = 1 + lefth.max(righth);
    let carry = if register < local { (n - size) * (local - register) } else { register - local };
    let lean = lefth.abs_diff(righth);
    (size, left_weight + right_weight + 6 * carry + 2 * lean + lean.saturating_sub(1))
}

pub fn worth(words: &[u32]) -> Answer {
    let Some((header, slots)) = parts(words) else { return refuse(WRONG_LENGTH) };
    if !sound(header, slots) {
        return refuse(DAMAGED);
    }
    // The root has no carry; nothing stands outside its subtree, and so the register above it may be 0.
    accept(header, weigh(slots, header[ROOT], header[RECORDS].into(), 0).1, 0, 0)
}
