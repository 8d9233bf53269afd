//! Chooses calls and arguments: mostly ones that do something, and each limit and one beyond it.

use crate::call::Call;
use crate::dice::Dice;
use crate::firing::judge;
use crate::paper::*;

/// Which calls to choose, a name as often as it stands here.
const MIX: [&str; 40] = [
    "check", "find", "find", "find", "find", "post", "post", "post", "post", "post", "post", "post", "amend", "amend",
    "amend", "drop", "drop", "drop", "drop", "drop", "rank", "rank", "rank", "total", "total", "total", "worth",
    "worth", "fire", "fire", "fire", "fire", "fire", "fire", "fire", "fire", "fire", "tidy", "tidy", "tidy",
];

/// A call on the words as they stand.
pub fn any_call(dice: &mut Dice, words: &[u32]) -> Call {
    if dice.chance(1, 150) {
        return Call::new("start", &[]);
    }
    let name = dice.pick(&MIX);
    call_named(dice, words, name)
}

/// A call of this name with arguments.
pub fn call_named(dice: &mut Dice, words: &[u32], name: &str) -> Call {
    let slots = slots_of(words.len()).unwrap_or(3);
    match name {
        "find" | "drop" | "total" => Call::new(name, &[key(dice, words)]),
        "post" | "amend" => {
            let key = if name == "post" && dice.chance(1, 2) { gap(dice, words) } else { key(dice, words) };
            Call::new(name, &[key, pieces(dice), state(dice)])
        }
        "rank" => Call::new(name, &[rank(dice, words)]),
        "fire" => firing(dice, words, slots),
        "tidy" => Call::new(name, &[budget(dice, slots)]),
        _ => Call::new(name, &[]),
    }
}

/// A rank: mostly one that the table has, or one beyond.
fn rank(dice: &mut Dice, words: &[u32]) -> u32 {
    let count = slots_of(words.len()).map_or(1, |slots| slots.min(words[RECORDS] as usize));
    match dice.below(12) {
        0 => 0,
        1 => dice.word(),
        2 => count as u32,
        3 => count as u32 + 1,
        _ => dice.between(1, count + 1) as u32,
    }
}

/// The key word of some slot, of a used one if a few throws find it.
fn slot_key(dice: &mut Dice, words: &[u32]) -> u32 {
    let Some(slots) = slots_of(words.len()) else { return dice.word() };
    let found = (0..4).map(|_| get(words, dice.between(1, slots), KEY)).find(|&key| key != 0);
    found.unwrap_or_else(|| dice.below(80) as u32)
}

/// A key: mostly one of the table's, often one above or below it; also 0 and the largest.
fn key(dice: &mut Dice, words: &[u32]) -> u32 {
    match dice.below(32) {
        0 => 0,
        1 => u32::MAX,
        2 => dice.word(),
        3 => dice.below(40) as u32,
        4..=6 => slot_key(dice, words).wrapping_add(1),
        7..=9 => slot_key(dice, words).wrapping_sub(1),
        _ => slot_key(dice, words),
    }
}

/// A key that is likely to be new.
fn gap(dice: &mut Dice, words: &[u32]) -> u32 {
    let near = slot_key(dice, words);
    let step = dice.pick(&[1, 2, 3, 50, 1 << 20]);
    if dice.chance(1, 2) {
        near.wrapping_add(step)
    } else {
        near.wrapping_sub(step)
    }
}

fn pieces(dice: &mut Dice) -> u32 {
    match dice.below(24) {
        0 => 0,
        1 => MOST_PIECES + 1,
        2 => dice.word(),
        3 => MOST_PIECES,
        4 => 1,
        _ => dice.between(1, 2000) as u32,
    }
}

fn state(dice: &mut Dice) -> u32 {
    match dice.below(30) {
        0 => 0,
        1 => 3,
        2 => dice.word(),
        _ => dice.between(1, 2) as u32,
    }
}

/// A budget: without end only for tables where it ends soon.
fn budget(dice: &mut Dice, slots: usize) -> u32 {
    let most = if slots <= 64 {
        40
    } else if slots <= 300 {
        12
    } else {
        3
    };
    match dice.below(8) {
        0 => 0,
        1 | 2 => 1,
        3 if slots <= 16 => dice.word(),
        4 if slots <= 16 => u32::MAX,
        _ => dice.between(0, most) as u32,
    }
}

/// A firing: one of its rule that would be accepted or get a rare code if a few throws find it.
fn firing(dice: &mut Dice, words: &[u32], slots: usize) -> Call {
    let rule = dice.between(1, 8) as u32;
    for _ in 0..dice.pick(&[0, 8, 40]) {
        let (_, holder, side) = throw(dice, slots, 1, 8, 0, 1);
        let lawful = holder as usize <= slots && !(holder == 0 && side == 1) && slots_of(words.len()).is_some();
        if lawful && judge(words, slots, rule, holder as usize, side as usize) != Err(GUARD_FAILS) {
            return Call::new("fire", &[rule, holder, side]);
        }
    }
    let over = usize::from(dice.chance(1, 8));
    let (rule, holder, side) = throw(dice, slots, 1 - over, 8 + over, over, 1 + over);
    let rare = dice.word();
    Call::new(
        "fire",
        &match dice.below(60) {
            0 => [rare, holder, side],
            1 => [rule, rare, side],
            2 => [rule, holder, rare],
            _ => [rule, holder, side],
        },
    )
}

/// A rule, a holder (the root link one time in six) and a side.
fn throw(dice: &mut Dice, slots: usize, low: usize, high: usize, over: usize, sides: usize) -> (u32, u32, u32) {
    let rule = dice.between(low, high) as u32;
    if dice.chance(1, 6) {
        return (rule, 0, if dice.chance(1, 10) { 1 } else { 0 });
    }
    (rule, dice.between(0, slots + over) as u32, dice.between(0, sides) as u32)
}
