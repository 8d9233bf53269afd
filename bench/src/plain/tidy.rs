//! tidy in plain Rust: the slots that are due are kept in a bit set.

use super::rules::{due, fire, guarded};
use super::sound::sound;
use crate::words::*;

/// The slots where a rule is due, with a word above them that says which words are not 0.
struct Due {
    words: [u64; 64],
    top: u64,
}

impl Due {
    #[inline]
    fn set(&mut self, k: usize, on: bool) {
        let (word, bit) = (k / 64, 1u64 << (k % 64));
        self.words[word] = if on { self.words[word] | bit } else { self.words[word] & !bit };
        self.top = if self.words[word] != 0 { self.top | 1 << word } else { self.top & !(1 << word) };
    }

    /// The lowest slot, 0 for none.
    #[inline]
    fn lowest(&self) -> u32 {
        match self.top {
            0 => 0,
            top => (top.trailing_zeros() << 6) + self.words[top.trailing_zeros() as usize].trailing_zeros(),
        }
    }
}

/// Writes down the holder of each son of a slot.
#[inline]
fn hold_sons(holders: &mut [u16; 4096], slots: &[Slot], k: u32) {
    let s = &slots[k as usize - 1];
    holders[(s[LEFT] & 4095) as usize] = k as u16;
    holders[(s[RIGHT] & 4095) as usize] = k as u16;
}

/// Fires what is due, lowest slot first, and looks again only where the firing can have changed a guard.
fn run(header: &mut Header, slots: &mut [Slot], budget: u32) -> u32 {
    let mut holders = [0u16; 4096];
    let mut waiting = Due { words: [0; 64], top: 0 };
    for k in 1..=slots.len() as u32 {
        if slots[k as usize - 1][STATE] != 0 {
            hold_sons(&mut holders, slots, k);
            waiting.set(k as usize, due(slots, k) != 0);
        }
    }
    let mut fired = 0;
    while fired < budget {
        let v = waiting.lowest();
        if v == 0 {
            break;
        }
        let holder = u32::from(holders[v as usize]);
        let touched = fire(header, slots, due(slots, v), holder, v);
        if touched[1] != 0 {
            let top = touched[if touched[2] != 0 { 2 } else { 1 }];
            for k in touched {
                if k != 0 {
                    hold_sons(&mut holders, slots, k);
                }
            }
            holders[top as usize] = holder as u16;
        }
        let over = if holder == 0 { 0 } else { u32::from(holders[holder as usize]) };
        for k in [touched[0], touched[1], touched[2], holder, over] {
            if k != 0 {
                waiting.set(k as usize, due(slots, k) != 0);
            }
        }
        fired += 1;
    }
    fired
}

/// No guard holds anywhere.
fn quiet(slots: &[Slot]) -> bool {
    (1..=slots.len() as u32).all(|k| !guarded(slots, k))
}

pub fn tidy(words: &mut [u32], budget: u32) -> Answer {
    tidied(words, budget, run)
}

/// How a tidy begins and ends, whatever way it runs in between.
pub fn tidied(words: &mut [u32], budget: u32, run: fn(&mut Header, &mut [Slot], u32) -> u32) -> Answer {
    let Some((header, slots)) = parts_mut(words) else { return refuse(WRONG_LENGTH) };
    if !sound(header, slots) {
        return refuse(DAMAGED);
    }
    let fired = run(header, slots, budget);
    accept(header, fired.into(), quiet(slots).into(), 0)
}
