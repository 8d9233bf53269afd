//! tidy by a scan from the first slot on for each firing, in two ways.

use super::rules::{due, fire, passes};
use super::tidy::tidied;
use crate::words::*;

/// The slot that holds the link to v, found by a scan too; 0 for the root.
fn holder_of(slots: &[Slot], v: u32) -> u32 {
    slots.iter().position(|s| s[LEFT] == v || s[RIGHT] == v).map_or(0, |k| k as u32 + 1)
}

/// Fires what a search finds, until it finds nothing or the budget is spent.
fn run(header: &mut Header, slots: &mut [Slot], budget: u32, first: fn(&[Slot]) -> Option<(u32, u32)>) -> u32 {
    for fired in 0..budget {
        let Some((v, rule)) = first(slots) else { return fired };
        let holder = if rule <= 2 { 0 } else { holder_of(slots, v) };
        fire(header, slots, rule, holder, v);
    }
    budget
}

/// The records among the slots.
fn records(slots: &[Slot]) -> impl Iterator<Item = u32> + '_ {
    (1..).zip(slots).filter(|(_, s)| s[STATE] != 0).map(|(v, _)| v)
}

/// Every slot, and at each slot the eight rules one after the other.
fn by_rule(slots: &[Slot]) -> Option<(u32, u32)> {
    records(slots).find_map(|v| (1..=8).find(|&rule| passes(slots, v, rule)).map(|rule| (v, rule)))
}

/// Every slot, with its lowest rule worked out at one look.
fn at_one_look(slots: &[Slot]) -> Option<(u32, u32)> {
    records(slots).map(|v| (v, due(slots, v))).find(|&(_, rule)| rule != 0)
}

pub fn rescan(words: &mut [u32], budget: u32) -> Answer {
    tidied(words, budget, |header, slots, budget| run(header, slots, budget, by_rule))
}

pub fn rescan_at_one_look(words: &mut [u32], budget: u32) -> Answer {
    tidied(words, budget, |header, slots, budget| run(header, slots, budget, at_one_look))
}
