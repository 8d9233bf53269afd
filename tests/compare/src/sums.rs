//! rank, total and worth as document 01 states them, and the true height by recursion.

use crate::firing::{balance, carry};
use crate::paper::*;
use crate::records::{accept, refuse, Answer};

pub fn rank(words: &[u32], r: u32) -> Answer {
    let Some(slots) = slots_of(words.len()) else { return refuse(WRONG_LENGTH) };
    if r == 0 {
        return refuse(OUT_OF_RANGE);
    }
    if !is_sound(words, slots) {
        return refuse(DAMAGED);
    }
    match in_order(words).get(r as usize - 1) {
        None => refuse(KEY_ABSENT),
        Some(&slot) => accept(words, slot as u64, 0, 0),
    }
}

pub fn total(words: &[u32], key: u32) -> Answer {
    let Some(slots) = slots_of(words.len()) else { return refuse(WRONG_LENGTH) };
    if !is_sound(words, slots) {
        return refuse(DAMAGED);
    }
    let counted = (1..=slots).filter(|&k| get(words, k, STATE) != 0 && get(words, k, KEY) <= key);
    let sum = counted.map(|k| u64::from(get(words, k, PIECES))).sum();
    accept(words, sum, 0, 0)
}

/// The number of slots in the subtree of each slot of a sound table.
fn sizes(words: &[u32], order: &[(usize, usize, usize)]) -> Vec<i128> {
    let mut sizes = vec![0; room(words.len()) + 1];
    for &(k, holder, _) in order.iter().rev() {
        sizes[k] += 1;
        if holder != 0 {
            sizes[holder] += sizes[k];
        }
    }
    sizes
}

/// The worth of a sound table.
pub fn worth_of(words: &[u32]) -> i128 {
    let order = downward(words);
    let sizes = sizes(words, &order);
    let (mut neg, mut pos, mut bal, mut rbal) = (0, 0, 0, 0);
    for &(k, holder, side) in &order {
        if holder != 0 {
            let car = i128::from(carry(words, holder, side));
            if car < 0 {
                neg += (order.len() as i128 - sizes[k]) * -car;
            } else {
                pos += car;
            }
        }
        let lean = i128::from(balance(words, k).abs());
        bal += lean;
        rbal += if lean >= 2 { lean - 1 } else { 0 };
    }
    6 * (neg + pos) + 2 * bal + rbal
}

pub fn worth(words: &[u32]) -> Answer {
    match slots_of(words.len()) {
        None => refuse(WRONG_LENGTH),
        Some(slots) if !is_sound(words, slots) => refuse(DAMAGED),
        Some(_) => accept(words, worth_of(words) as u64, 0, 0),
    }
}

/// The true height below a link of a sound table.
pub fn true_height(words: &[u32], k: usize) -> u32 {
    if k == 0 {
        return 0;
    }
    1 + true_height(words, link(words, k, 0)).max(true_height(words, link(words, k, 1)))
}

/// What is wrong with a table that tidy calls quiet: each register has to be the true height, no two sides more than
/// one apart, and the worth twice the number of leaning records.
pub fn quiet_fault(words: &[u32]) -> Option<String> {
    let mut leaning = 0;
    for (k, _, _) in downward(words) {
        for side in 0..2 {
            let (register, height) = (get(words, k, HEIGHT[side]), true_height(words, link(words, k, side)));
            if register != height {
                return Some(format!("slot {k}, side {side}: register {register}, true height {height}"));
            }
        }
        match balance(words, k).abs() {
            0 => (),
            1 => leaning += 1,
            lean => return Some(format!("slot {k} leans by {lean}")),
        }
    }
    let worth = worth_of(words);
    (worth != 2 * leaning).then(|| format!("worth {worth} with {leaning} leaning records"))
}
