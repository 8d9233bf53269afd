//! Makes a found difference small and prints it, so that it can be repeated and read.

use crate::bench::{difference, Difference};
use crate::call::ARITY;
use crate::paper::*;
use std::time::{Duration, Instant};

/// Looks for a smaller case that still differs, for at most a few seconds.
pub fn shrink(found: Difference) -> Difference {
    let end = Instant::now() + Duration::from_secs(6);
    let mut best = found;
    loop {
        let before = best.before.clone();
        let args = best.call.args;
        best = fewer_slots(best, end);
        best = smaller_words(best, end);
        best = smaller_arguments(best);
        if Instant::now() > end || (best.before == before && best.call.args == args) {
            return best;
        }
    }
}

/// Takes the smaller case if it still differs.
fn try_words(best: &mut Difference, words: Vec<u32>) -> bool {
    match difference(&words, best.call) {
        None => false,
        Some(smaller) => {
            *best = smaller;
            true
        }
    }
}

/// Cuts slots off the end: half of them, then fewer, then one.
fn fewer_slots(mut best: Difference, end: Instant) -> Difference {
    let mut cut = slots_of(best.before.len()).unwrap_or(0) / 2;
    while cut > 0 && Instant::now() < end {
        let rest = best.before.len() - (SLOT_WORDS * cut).min(best.before.len());
        let shorter = best.before[..rest].to_vec();
        if slots_of(rest).is_none() || !try_words(&mut best, shorter) {
            cut /= 2;
        }
    }
    best
}

/// Makes each word 0, 1 or half, where it still differs; whole slots first.
fn smaller_words(mut best: Difference, end: Instant) -> Difference {
    for k in 1..=room(best.before.len()) {
        let mut words = best.before.clone();
        blank(&mut words, k);
        if words != best.before && Instant::now() < end {
            try_words(&mut best, words);
        }
    }
    for place in 0..best.before.len() {
        for smaller in [0, 1, best.before[place] / 2, best.before[place].saturating_sub(1)] {
            if smaller < best.before[place] && Instant::now() < end {
                let mut words = best.before.clone();
                words[place] = smaller;
                try_words(&mut best, words);
            }
        }
    }
    best
}

/// Makes each argument smaller where it still differs.
fn smaller_arguments(mut best: Difference) -> Difference {
    for place in 0..ARITY[best.call.name] {
        let now = best.call.args[place];
        for smaller in [0, 1, now / 2, now.saturating_sub(1)] {
            let mut call = best.call;
            call.args[place] = smaller;
            if smaller < best.call.args[place] {
                best = difference(&best.before, call).unwrap_or(best);
            }
        }
    }
    best
}

/// The case in the form that `--case` takes, then both sides' answers and the words on which they differ.
pub fn show(found: &Difference) {
    let words: Vec<String> = found.before.iter().map(u32::to_string).collect();
    println!("  repeat with: --case '{} : {}'", found.call.shown(), words.join(" "));
    show_slots(&found.before);
    println!("  call     {}", found.call.shown());
    println!("  library  {:?}", found.library.0);
    println!("  paper    {:?}", found.paper.0);
    for (place, (library, paper)) in found.library.1.iter().zip(&found.paper.1).enumerate() {
        if library != paper {
            println!("  word {place} afterwards: library {library}, paper {paper}");
        }
    }
    if found.stray {
        println!("  the library wrote outside the lent words");
    }
}

/// The table before the call, one slot a line; free slots are left out.
fn show_slots(words: &[u32]) {
    if slots_of(words.len()).is_none() {
        return println!("  {} words, no table's length", words.len());
    }
    println!("  root {}, records {}, change {}, word 3 {}", words[ROOT], words[RECORDS], words[CHANGE], words[ZERO]);
    let slots = words[HEADER_WORDS..].chunks(SLOT_WORDS);
    for (k, slot) in slots.enumerate().filter(|(_, slot)| slot.iter().any(|&word| word != 0)) {
        let [state, key, pieces, left, right, lefth, righth, last, ..] = slot else { continue };
        println!(
            "  slot {}: state {state} key {key} pieces {pieces} left {left} right {right} \
             lefth {lefth} righth {righth} last {last}",
            k + 1
        );
    }
}
