//! The groups of comparisons: one for each kind of table, each with its share of the calls.

use crate::bench::Bench;
use crate::call::{Call, NAMES};
use crate::choose::{any_call, call_named};
use crate::damage;
use crate::dice::Dice;
use crate::paper::{get, in_order, length_of, room, KEY, MOST_SLOTS};
use crate::records::check;
use crate::run::{Differs, Run};
use crate::sums::{quiet_fault, worth_of};
use crate::tables::*;

/// A group's work for so many calls.
pub type Work = fn(&mut Run, u64) -> Result<(), Differs>;

/// Each group with its share of a thousand calls.
pub const GROUPS: [(&str, u64, Work); 22] = [
    ("grown by calls from an empty table", 90, grown),
    ("sound, any shape and registers", 75, |run, calls| rows(run, calls, 25, |dice| any_sound(dice, 40))),
    ("left and right chains", 50, |run, calls| rows(run, calls, 25, chain)),
    ("zigzags", 40, |run, calls| rows(run, calls, 25, zigzag)),
    ("registers on which rotations apply", 70, |run, calls| rows(run, calls, 15, ready)),
    ("extreme registers", 80, |run, calls| rows(run, calls, 15, extreme)),
    ("firings keep the records and lower the worth", 40, lowering),
    ("quiet tables hold their true heights", 40, quiet),
    ("every firing on small tables", 80, every_firing),
    ("tables of up to 300 slots", 20, |run, calls| rows(run, calls, 30, middling)),
    ("tables of 4,095 slots", 10, largest),
    ("every length from 0 to that of 4,096 slots", 33, lengths),
    ("damaged: random words", 32, |run, calls| rows(run, calls, 12, damage::rubbish)),
    ("damaged: fit slots linked at random", 40, |run, calls| rows(run, calls, 12, damage::tangle)),
    ("damaged: one word changed", 60, |run, calls| faults(run, calls, damage::flip)),
    ("damaged: cycles", 50, |run, calls| faults(run, calls, damage::cycle)),
    ("damaged: shared sons", 50, |run, calls| faults(run, calls, damage::shared_son)),
    ("damaged: keys out of order", 30, |run, calls| faults(run, calls, damage::key_order)),
    ("damaged: wrong count of records", 30, |run, calls| faults(run, calls, damage::record_count)),
    ("damaged: free slots not blank", 30, |run, calls| faults(run, calls, damage::orphan)),
    ("damaged: header and fields at their limits", 30, limits),
    ("damaged: several faults at once", 20, |run, calls| faults(run, calls, damage::several)),
];

/// Rows of calls, each on a table made for it.
fn rows(run: &mut Run, calls: u64, length: usize, make: fn(&mut Dice) -> Vec<u32>) -> Result<(), Differs> {
    while run.calls < calls {
        let words = make(&mut run.dice);
        run.row(&words, length)?;
    }
    Ok(())
}

fn faults(run: &mut Run, calls: u64, fault: damage::Fault) -> Result<(), Differs> {
    while run.calls < calls {
        let words = damage::faulty(&mut run.dice, fault);
        run.row(&words, 12)?;
    }
    Ok(())
}

fn limits(run: &mut Run, calls: u64) -> Result<(), Differs> {
    faults(run, calls / 3, damage::header)?;
    faults(run, calls, damage::field)
}

/// Long rows that start at a started table.
fn grown(run: &mut Run, calls: u64) -> Result<(), Differs> {
    while run.calls < calls {
        let slots = run.dice.pick(&[1, 2, 5, 15, 40]);
        let rubbish: Vec<u32> = (0..length_of(slots)).map(|_| run.dice.word()).collect();
        let mut bench = Bench::new(&rubbish);
        run.call(&mut bench, Call::new("start", &[]))?;
        for _ in 0..150 {
            let call = any_call(&mut run.dice, bench.words());
            run.call(&mut bench, call)?;
        }
    }
    Ok(())
}

fn chain(dice: &mut Dice) -> Vec<u32> {
    let (slots, count) = small_size(dice, 40);
    let (shape, how) = (dice.pick(&[Shape::LeftChain, Shape::RightChain]), dice.pick(&REGISTERS));
    sound(dice, slots, count, shape, how)
}

fn zigzag(dice: &mut Dice) -> Vec<u32> {
    let (slots, count) = small_size(dice, 40);
    let how = dice.pick(&REGISTERS);
    sound(dice, slots, count, Shape::Zigzag, how)
}

fn ready(dice: &mut Dice) -> Vec<u32> {
    let (slots, count) = small_size(dice, 20);
    let shape = dice.pick(&[Shape::Random, Shape::Random, Shape::Lopsided, Shape::Zigzag]);
    let how = dice.pick(&[Registers::True, Registers::Near]);
    let mut words = sound(dice, slots, count, shape, how);
    for _ in 0..3 {
        prime(dice, &mut words);
    }
    words
}

fn extreme(dice: &mut Dice) -> Vec<u32> {
    let (slots, count) = small_size(dice, 10);
    let shape = dice.pick(&SHAPES);
    sound(dice, slots, count, shape, Registers::Extreme)
}

fn middling(dice: &mut Dice) -> Vec<u32> {
    any_sound(dice, 300)
}

/// Small tables with any registers, and some of the largest size that only a few changes keep from being quiet.
fn quiet(run: &mut Run, calls: u64) -> Result<(), Differs> {
    while run.calls < calls {
        let most = run.dice.pick(&[3, 7, 15, 15, 24]);
        let words = match run.calls % 10_000 {
            0..40 => sound(&mut run.dice, MOST_SLOTS, MOST_SLOTS - 3, Shape::Middle, Registers::True),
            _ => any_sound(&mut run.dice, most),
        };
        quiet_again(run, &words)?;
    }
    Ok(())
}

/// After tidy has made all its firings, each register is the true height; then the table is changed and tidied again.
fn quiet_again(run: &mut Run, words: &[u32]) -> Result<(), Differs> {
    let mut bench = Bench::new(words);
    for _ in 0..6 {
        let answer = run.call(&mut bench, Call::new("tidy", &[u32::MAX]))?;
        if answer[3] != 1 {
            return Err(run.fault(bench.words(), "tidy stopped below its budget with a guard that holds"));
        }
        if let Some(fault) = quiet_fault(bench.words()) {
            return Err(run.fault(bench.words(), &fault));
        }
        for name in ["worth", "post", "drop", "post", "find", "drop"] {
            let call = call_named(&mut run.dice, bench.words(), name);
            run.call(&mut bench, call)?;
        }
    }
    Ok(())
}

/// On sound tables each accepted firing leaves a sound table with the same keys in order and a smaller worth.
fn lowering(run: &mut Run, calls: u64) -> Result<(), Differs> {
    let keys = |words: &[u32]| in_order(words).iter().map(|&k| get(words, k, KEY)).collect::<Vec<_>>();
    while run.calls < calls {
        let words = if run.dice.chance(1, 3) { any_sound(&mut run.dice, 12) } else { ready(&mut run.dice) };
        for _ in 0..8 {
            let mut bench = Bench::new(&words);
            let call = call_named(&mut run.dice, &words, "fire");
            if run.call(&mut bench, call)?[0] != 0 {
                continue;
            }
            let after = bench.words();
            if check(after)[0] != 0 || keys(after) != keys(&words) || worth_of(after) >= worth_of(&words) {
                return Err(run.fault(&words, &format!("{} loses records or worth", call.shown())));
            }
        }
    }
    Ok(())
}

/// All rules, holders and sides, and one beyond each, on the same small table.
fn every_firing(run: &mut Run, calls: u64) -> Result<(), Differs> {
    while run.calls < calls {
        let words = match run.dice.below(4) {
            0 => ready(&mut run.dice),
            1 => extreme(&mut run.dice),
            2 => damage::tangle(&mut run.dice),
            _ => damage::faulty(&mut run.dice, damage::several),
        };
        let slots = room(words.len()) as u32;
        for holder in 0..=(slots + 1).min(6) {
            for (rule, side) in (0..=9).flat_map(|rule| (0..=2).map(move |side| (rule, side))) {
                run.call(&mut Bench::new(&words), Call::new("fire", &[rule, holder, side]))?;
            }
        }
    }
    Ok(())
}

/// Full tables of the largest size in every shape, some with a fault; all calls, tidy with a small budget.
fn largest(run: &mut Run, calls: u64) -> Result<(), Differs> {
    for turn in 0.. {
        let (shape, how) = (SHAPES[turn % SHAPES.len()], REGISTERS[turn % REGISTERS.len()]);
        let count = MOST_SLOTS - run.dice.pick(&[0, 0, 1, 2, 100]);
        let mut words = sound(&mut run.dice, MOST_SLOTS, count, shape, how);
        if run.dice.chance(1, 4) {
            let fault = run.dice.pick(&damage::FAULTS);
            fault(&mut run.dice, &mut words);
        }
        let mut bench = Bench::new(&words);
        for name in NAMES.iter().skip(1).chain(&["find", "find", "drop", "post", "total", "fire", "check"]) {
            if run.calls >= calls {
                return Ok(());
            }
            let call = call_named(&mut run.dice, bench.words(), name);
            run.call(&mut bench, call)?;
        }
    }
    Ok(())
}

/// Every length up to one slot too many, lawful ones too, each with some call; the shortest with every call.
fn lengths(run: &mut Run, calls: u64) -> Result<(), Differs> {
    let most = length_of(MOST_SLOTS + 1);
    let words: Vec<u32> = (0..most).map(|_| run.dice.word()).collect();
    let step = most as u64 / calls.max(1) + 1;
    while run.calls < calls {
        for length in (0..=most).step_by(step as usize) {
            let name = run.dice.pick(&NAMES);
            let names = if length <= 30 { &NAMES[..] } else { &[name][..] };
            for name in names {
                let call = call_named(&mut run.dice, &words[..length], name);
                run.call(&mut Bench::new(&words[..length]), call)?;
            }
        }
    }
    Ok(())
}
