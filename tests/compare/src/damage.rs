//! Damaged tables: one fault or several put into a sound table, or words with no sense at all.

use crate::dice::Dice;
use crate::paper::*;
use crate::tables::any_sound;

/// Puts one fault of its kind into a table.
pub type Fault = fn(&mut Dice, &mut [u32]);

pub const FAULTS: [Fault; 8] = [flip, cycle, shared_son, key_order, record_count, orphan, header, field];

/// A small sound table with a fault of the kind given.
pub fn faulty(dice: &mut Dice, fault: Fault) -> Vec<u32> {
    let most = dice.pick(&[1, 3, 6, 12, 30]);
    let mut words = any_sound(dice, most);
    fault(dice, &mut words);
    words
}

/// A few faults in one table.
pub fn several(dice: &mut Dice, words: &mut [u32]) {
    for _ in 0..dice.between(2, 4) {
        let fault = dice.pick(&FAULTS);
        fault(dice, words);
    }
}

fn slot_count(words: &[u32]) -> usize {
    room(words.len())
}

/// A slot that is not free, if there is one: found from a random place on.
fn used(dice: &mut Dice, words: &[u32]) -> Option<usize> {
    let slots = slot_count(words);
    let first = dice.below(slots);
    (0..slots).map(|i| 1 + (first + i) % slots).find(|&k| get(words, k, STATE) != 0)
}

/// One word changed: a bit of it, by one, or altogether.
pub fn flip(dice: &mut Dice, words: &mut [u32]) {
    let place = dice.below(words.len());
    let word = &mut words[place];
    *word = match dice.below(4) {
        0 => *word ^ (1 << dice.below(32)),
        1 => word.wrapping_add(1),
        2 => word.wrapping_sub(1),
        _ => dice.word(),
    };
}

/// A link that leads back up, or to its own slot.
pub fn cycle(dice: &mut Dice, words: &mut [u32]) {
    let mut way = vec![words[ROOT] as usize];
    while let Some(&k) = way.last() {
        let side = dice.below(2);
        if k == 0 || k > slot_count(words) || way.len() > slot_count(words) {
            return;
        }
        let next = link(words, k, side);
        if next == 0 || dice.chance(1, 4) {
            words[place(k, LINK[side])] = way[dice.below(way.len())] as u32;
            return;
        }
        way.push(next);
    }
}

/// A link that leads to a slot which another link holds already.
pub fn shared_son(dice: &mut Dice, words: &mut [u32]) {
    if let (Some(k), Some(son)) = (used(dice, words), used(dice, words)) {
        let side = dice.below(2);
        words[place(k, LINK[side])] = son as u32;
    }
}

/// Two keys exchanged or made equal, or one moved.
pub fn key_order(dice: &mut Dice, words: &mut [u32]) {
    let (Some(one), Some(other)) = (used(dice, words), used(dice, words)) else { return };
    match dice.below(3) {
        0 => words.swap(place(one, KEY), place(other, KEY)),
        1 => words[place(one, KEY)] = get(words, other, KEY),
        _ => words[place(one, KEY)] = dice.word().max(1),
    }
}

/// A wrong number of records.
pub fn record_count(dice: &mut Dice, words: &mut [u32]) {
    let slots = slot_count(words) as u32;
    words[RECORDS] = match dice.below(4) {
        0 => 0,
        1 => slots,
        2 => words[RECORDS].wrapping_add(1),
        _ => dice.below(slots as usize + 1) as u32,
    };
}

/// Something written in a free slot: one word, or a whole record that no link leads to.
pub fn orphan(dice: &mut Dice, words: &mut [u32]) {
    let slots = slot_count(words);
    let Some(free) = (1..=slots).filter(|&k| is_blank(words, k)).last() else { return };
    if dice.chance(1, 2) {
        words[place(free, dice.below(SLOT_WORDS))] = dice.pick(&[1, 2, 3, u32::MAX]);
    } else {
        plausible_slot(dice, words, slots, free);
    }
}

/// A bad header word.
pub fn header(dice: &mut Dice, words: &mut [u32]) {
    let over = slot_count(words) as u32 + 1;
    let (place, number) =
        dice.pick(&[(ROOT, over), (ROOT, u32::MAX), (RECORDS, over), (RECORDS, u32::MAX), (ZERO, 1), (ZERO, u32::MAX)]);
    words[place] = number;
}

/// One field of a used slot out of its range, each limit missed by one.
pub fn field(dice: &mut Dice, words: &mut [u32]) {
    let Some(k) = used(dice, words) else { return };
    let (side, over) = (dice.below(2), slot_count(words) as u32 + 1);
    let faults = [
        (STATE, 0),
        (STATE, 3),
        (KEY, 0),
        (PIECES, 0),
        (PIECES, MOST_PIECES + 1),
        (LINK[side], over),
        (LINK[side], u32::MAX),
        (LINK[side], 0),
        (HEIGHT[side], MOST_HEIGHT + 1),
        (HEIGHT[side], 1),
        (LAST, 1),
    ];
    let (field, number) = dice.pick(&faults);
    words[place(k, field)] = number;
}

/// A fit slot with links to anywhere.
fn plausible_slot(dice: &mut Dice, words: &mut [u32], slots: usize, k: usize) {
    words[place(k, STATE)] = dice.between(1, 2) as u32;
    words[place(k, KEY)] = dice.between(1, 3 * slots) as u32;
    words[place(k, PIECES)] = dice.between(1, 9) as u32;
    for side in 0..2 {
        let son = dice.below(slots + 1) as u32;
        words[place(k, LINK[side])] = son;
        let most = dice.pick(&[3, 5, MOST_HEIGHT]);
        words[place(k, HEIGHT[side])] = if son == 0 { 0 } else { dice.between(0, most as usize) as u32 };
    }
}

/// Slots that are fit one by one, linked at random: cycles and shared sons everywhere.
pub fn tangle(dice: &mut Dice) -> Vec<u32> {
    let slots = dice.pick(&[1, 2, 3, 4, 5, 6, 8, 12]);
    let mut words = vec![0; length_of(slots)];
    for k in 1..=slots {
        if dice.chance(7, 8) {
            plausible_slot(dice, &mut words, slots, k);
        }
    }
    words[ROOT] = dice.below(slots + 1) as u32;
    words[RECORDS] = dice.below(slots + 1) as u32;
    words[CHANGE] = dice.pick(&[0, 5, u32::MAX - 1, u32::MAX]);
    words
}

/// Any words at all, or small ones.
pub fn rubbish(dice: &mut Dice) -> Vec<u32> {
    let slots = dice.between(1, 12);
    let most = dice.pick(&[1, 2, 3, slots, slots + 1, 70_000, u32::MAX as usize]);
    let mut words: Vec<u32> = (0..length_of(slots)).map(|_| dice.between(0, most) as u32).collect();
    if dice.chance(1, 2) {
        words[ZERO] = 0;
    }
    words
}
