//! Sound tables of many shapes, built word by word: chains, zigzags, bushes; true, stale or extreme registers.

use crate::dice::Dice;
use crate::firing::local_height;
use crate::paper::*;

#[derive(Clone, Copy)]
pub enum Shape {
    Random,
    LeftChain,
    RightChain,
    Zigzag,
    Middle,
    Lopsided,
}

#[derive(Clone, Copy)]
pub enum Registers {
    Zero,
    True,
    Near,
    Wild,
    Extreme,
}

pub const SHAPES: [Shape; 6] =
    [Shape::Random, Shape::LeftChain, Shape::RightChain, Shape::Zigzag, Shape::Middle, Shape::Lopsided];
pub const REGISTERS: [Registers; 5] =
    [Registers::Zero, Registers::True, Registers::Near, Registers::Wild, Registers::Extreme];

/// Which of the keys numbered `low` to `end - 1` stands on top, at a given depth.
fn top(dice: &mut Dice, shape: Shape, low: usize, end: usize, depth: usize) -> usize {
    match shape {
        Shape::Random => dice.between(low, end - 1),
        Shape::LeftChain => end - 1,
        Shape::RightChain => low,
        Shape::Zigzag => {
            if depth % 2 == 0 {
                low
            } else {
                end - 1
            }
        }
        Shape::Middle => (low + end) / 2,
        Shape::Lopsided => low + (end - low) * 3 / 8,
    }
}

/// So many different keys in order: close together, spread out, or up to the largest.
fn keys(dice: &mut Dice, count: usize) -> Vec<u32> {
    let first = dice.pick(&[1, 2, 1000, u32::MAX / 2]);
    let step = dice.pick(&[1, 1, 2, 7, 100_000]);
    let mut keys: Vec<u32> = (0..count as u32).map(|i| first + i * step).collect();
    if dice.chance(1, 4) {
        keys.iter_mut().rev().enumerate().for_each(|(i, key)| *key = u32::MAX - step * i as u32);
    }
    keys
}

/// The slots that the records take: in key order, in the opposite order, or anywhere.
fn slot_numbers(dice: &mut Dice, slots: usize) -> Vec<usize> {
    match dice.below(4) {
        0 => (1..=slots).collect(),
        1 => (1..=slots).rev().collect(),
        _ => dice.shuffled(slots),
    }
}

fn register(dice: &mut Dice, how: Registers, height: u32) -> u32 {
    match how {
        Registers::Zero => 0,
        Registers::True => height,
        Registers::Near => (height + dice.pick(&[0, 0, 0, 1, 2])).saturating_sub(dice.pick(&[0, 0, 1, 3])),
        Registers::Wild => dice.below(MOST_HEIGHT as usize + 1) as u32,
        Registers::Extreme => dice.pick(&[0, 1, 2, 65_533, 65_534, 65_535, height]),
    }
}

/// Writes the register beside each link that has a son.
pub fn set_registers(dice: &mut Dice, words: &mut [u32], how: Registers) {
    let mut heights = vec![0; room(words.len()) + 1];
    for (k, holder, side) in downward(words).into_iter().rev() {
        let height = 1 + heights[link(words, k, 0)].max(heights[link(words, k, 1)]);
        heights[k] = height;
        if holder != 0 {
            words[place(holder, HEIGHT[side])] = register(dice, how, height);
        }
    }
}

/// A sound table with `count` records in `slots` slots.
pub fn sound(dice: &mut Dice, slots: usize, count: usize, shape: Shape, how: Registers) -> Vec<u32> {
    let mut words = vec![0; length_of(slots)];
    let (keys, numbers) = (keys(dice, count), slot_numbers(dice, slots));
    let mut waiting = vec![(0, count, 0, 0, 0)];
    while let Some((low, end, holder, side, depth)) = waiting.pop() {
        if low == end {
            continue;
        }
        let middle = top(dice, shape, low, end, depth);
        let k = numbers[middle];
        words[link_place(holder, side)] = k as u32;
        words[place(k, STATE)] = dice.between(1, 2) as u32;
        words[place(k, KEY)] = keys[middle];
        words[place(k, PIECES)] = dice.pick(&[1, 2, 750, 1200, MOST_PIECES - 1, MOST_PIECES]);
        waiting.push((low, middle, k, 0, depth + 1));
        waiting.push((middle + 1, end, k, 1, depth + 1));
    }
    words[RECORDS] = count as u32;
    words[CHANGE] = change_number(dice);
    set_registers(dice, &mut words, how);
    words
}

fn change_number(dice: &mut Dice) -> u32 {
    match dice.below(8) {
        0 => u32::MAX,
        1 => u32::MAX - dice.below(4) as u32,
        2 => dice.word(),
        _ => dice.below(100) as u32,
    }
}

/// Slots and records of a small table: often full, sometimes empty.
pub fn small_size(dice: &mut Dice, most: usize) -> (usize, usize) {
    let slots = dice.between(1, most);
    let count = match dice.below(5) {
        0 => slots,
        1 => dice.below(slots.min(4) + 1),
        _ => dice.below(slots + 1),
    };
    (slots, count)
}

/// A small sound table of any shape and registers.
pub fn any_sound(dice: &mut Dice, most: usize) -> Vec<u32> {
    let (slots, count) = small_size(dice, most);
    let (shape, how) = (dice.pick(&SHAPES), dice.pick(&REGISTERS));
    sound(dice, slots, count, shape, how)
}

/// Sets the registers about one record so that a rotation there is likely to apply.
pub fn prime(dice: &mut Dice, words: &mut [u32]) {
    let order = downward(words);
    if order.is_empty() {
        return;
    }
    let sons = |k, side| if k == 0 { 0 } else { link(words, k, side) };
    let full = |&(v, side): &(usize, usize)| sons(sons(v, side), 0) != 0 && sons(sons(v, side), 1) != 0;
    let Some((v, side)) = (0..12).map(|_| (dice.pick(&order).0, dice.below(2))).find(full) else { return };
    let u = link(words, v, side);
    let height = dice.between(1, 4) as u32;
    for (below, register) in [(side, height), (1 - side, height + dice.pick(&[0, 0, 1]))] {
        let son = link(words, u, below);
        let true_enough = if dice.chance(1, 2) { local_height(words, son) as u32 } else { register };
        set_beside_son(words, u, below, true_enough.min(MOST_HEIGHT));
    }
    let top = (local_height(words, u) as u32).min(MOST_HEIGHT);
    set_beside_son(words, v, side, top);
    set_beside_son(words, v, 1 - side, top.saturating_sub(dice.pick(&[1, 2, 2, 3])));
}

/// Writes a register if a son is beside it.
fn set_beside_son(words: &mut [u32], k: usize, side: usize, register: u32) {
    if link(words, k, side) != 0 {
        words[place(k, HEIGHT[side])] = register;
    }
}
