//! Misses, seen without any walk: the neighbours of an absent key in the list of all keys, and which kinds of misses
//! the comparisons have seen.

use crate::call::{Call, NAMES};
use crate::paper::*;
use crate::records::Answer;

/// The calls whose code 5 names the neighbours.
const CALLS: [&str; 3] = ["find", "amend", "drop"];

/// The kinds of misses. One on a sound table is of one of the first four kinds, and of the next two where it is so; one
/// on a table that is not sound is of one of the last two.
const KINDS: [&str; 8] = [
    "in an empty table",
    "below all keys",
    "above all keys",
    "between two keys",
    "one below a key",
    "one above a key",
    "not sound, the nearest keys named",
    "not sound, other keys named",
];

/// How often each of these calls has missed in each of the kinds.
#[derive(Default)]
pub struct Misses([[u64; KINDS.len()]; CALLS.len()]);

/// The keys that links lead to from the root, sorted; on a sound table those of all records.
fn keys_in_the_tree(words: &[u32], slots: usize) -> Vec<u32> {
    let mut reached = vec![false; slots + 1];
    let mut waiting = vec![words[ROOT] as usize];
    let mut keys = Vec::new();
    while let Some(k) = waiting.pop() {
        if k == 0 || k > slots || reached[k] {
            continue;
        }
        reached[k] = true;
        keys.push(get(words, k, KEY));
        waiting.extend([link(words, k, 0), link(words, k, 1)]);
    }
    keys.sort_unstable();
    keys
}

impl Misses {
    /// Counts the miss if this answer is one; says what is wrong if it does not name the nearest keys of a sound table.
    pub fn look(&mut self, call: Call, words: &[u32], answer: &Answer) -> Option<String> {
        let by = CALLS.iter().position(|name| *name == NAMES[call.name])?;
        if answer[0] != KEY_ABSENT {
            return None;
        }
        let (slots, key) = (slots_of(words.len())?, call.args[0]);
        let keys = keys_in_the_tree(words, slots);
        let smaller = keys.iter().rfind(|&&other| other < key).copied();
        let larger = keys.iter().find(|&&other| other > key).copied();
        let nearest = [smaller, larger].map(|found| u64::from(found.unwrap_or(0))) == answer[2..4];
        let (sound, low, high) = (is_sound(words, slots), smaller.is_some(), larger.is_some());
        let of_kind = [
            sound && !low && !high,
            sound && !low && high,
            sound && low && !high,
            sound && low && high,
            sound && larger.is_some_and(|other| other - key == 1),
            sound && smaller.is_some_and(|other| key - other == 1),
            !sound && nearest,
            !sound && !nearest,
        ];
        self.0[by].iter_mut().zip(of_kind).for_each(|(count, is)| *count += u64::from(is));
        (sound && !nearest).then(|| format!("{} names {:?}: the nearest keys are others", call.shown(), &answer[2..4]))
    }

    /// The kinds of misses that a call has not made.
    pub fn unseen(&self) -> Vec<String> {
        let missing = |by: usize| {
            let kinds = KINDS.iter().zip(&self.0[by]).filter(|(_, &count)| count == 0);
            kinds.map(move |(kind, _)| format!("{} with code 5, {kind}", CALLS[by]))
        };
        (0..CALLS.len()).flat_map(missing).collect()
    }

    /// How often each call has missed, one kind a line.
    pub fn show(&self) {
        println!("{:<36}{}", "misses", CALLS.map(|name| format!("{name:>9}")).concat());
        for (kind, name) in KINDS.iter().enumerate() {
            let counts: String = self.0.iter().map(|counts| format!("{:>9}", counts[kind])).collect();
            println!("{name:<36}{counts}");
        }
    }
}
