//! Ours and plain Rust keep the same promises: every call on small tables, sound and damaged, before anything is timed.

use crate::batches::{in_order, with_random_registers, Batch, Order};
use crate::dice::Dice;
use crate::words::*;
use crate::{ours, plain};

/// How many tables.
pub const CASES: u64 = 30_000;

type Call = fn(bool, &mut [u32], &[u32; 3]) -> Answer;

/// A call by ours or by plain Rust, on words that may be written.
macro_rules! call {
    ($ours:path, $plain:path $(, $i:literal)*) => {
        |by_ours, words, args| {
            let _ = args;
            let mut out = [u64::MAX; 5];
            let (t, n, o) = (words.as_mut_ptr(), words.len(), out.as_mut_ptr());
            unsafe { if by_ours { $ours(t, n $(, args[$i])*, o) } else { $plain(t, n $(, args[$i])*, o) } }
            out
        }
    };
}

const CALLS: [(&str, Call); 11] = [
    ("check", call!(ours::ftk_check, plain::plain_check)),
    ("find", call!(ours::ftk_find, plain::plain_find, 0)),
    ("post", call!(ours::ftk_post, plain::plain_post, 0, 1, 2)),
    ("drop", call!(ours::ftk_drop, plain::plain_drop, 0)),
    ("rank", call!(ours::ftk_rank, plain::plain_rank, 2)),
    ("total", call!(ours::ftk_total, plain::plain_total, 0)),
    ("total, walking", call!(ours::ftk_total, plain::plain_total_walking, 0)),
    ("worth", call!(ours::ftk_worth, plain::plain_worth)),
    ("tidy", call!(ours::ftk_tidy, plain::plain_tidy, 2)),
    ("rescan", call!(ours::ftk_tidy, plain::plain_rescan, 2)),
    ("rescan, one look", call!(ours::ftk_tidy, plain::plain_rescan_at_one_look, 2)),
];

/// A sound table of a few slots, some of them freed again, with true or stale or extreme registers.
fn table(dice: &mut Dice, case: u64) -> Vec<u32> {
    let slots = dice.between(1, 14);
    let all: Vec<Batch> = (1..=slots).map(|key| Batch { key, pieces: 10 * key, state: 1 + key % 2 }).collect();
    let mut words = vec![0; length(slots as usize)];
    let mut out = [0; 5];
    for b in in_order(&all, Order::Random, case) {
        unsafe { plain::plain_post(words.as_mut_ptr(), words.len(), b.key, b.pieces, b.state, out.as_mut_ptr()) };
    }
    for _ in 0..dice.below(5) {
        let key = dice.between(1, slots);
        unsafe { plain::plain_drop(words.as_mut_ptr(), words.len(), key, out.as_mut_ptr()) };
    }
    match dice.below(4) {
        0 => words,
        1 => with_random_registers(&words, 3),
        2 => with_random_registers(&words, MOST_HEIGHT),
        _ => {
            unsafe { plain::plain_tidy(words.as_mut_ptr(), words.len(), u32::MAX, out.as_mut_ptr()) };
            words
        }
    }
}

/// Spoils a few words, or the length.
fn spoil(dice: &mut Dice, words: &mut Vec<u32>) {
    for _ in 0..=dice.below(3) {
        let at = dice.below(words.len());
        let small = dice.between(0, 16);
        words[at] = [0, small, small, 65_535, 65_536, 1_000_000, 1_000_001, u32::MAX][dice.below(8)];
    }
    match dice.below(40) {
        0 => words.push(0),
        1 => words.truncate(dice.below(words.len() + 1)),
        _ => {}
    }
}

/// Ends the run if the two differ anywhere.
pub fn agree(cases: u64) {
    for case in 0..cases {
        let mut dice = Dice::new(1_000_000 + case);
        let mut words = table(&mut dice, case);
        if case % 2 == 1 {
            spoil(&mut dice, &mut words);
        }
        let args = [dice.between(0, 16), dice.between(0, 2) * 500_001, dice.between(0, 18)];
        let args = if dice.below(2) == 0 { args } else { [args[0], 1 + args[1] / 2, 1 + args[2] % 2] };
        for (name, call) in CALLS {
            let (mut a, mut b) = (words.clone(), words.clone());
            let (first, second) = (call(true, &mut a, &args), call(false, &mut b, &args));
            assert!(first == second && a == b, "{name} {args:?} on {words:?}: ours {first:?}, plain Rust {second:?}");
        }
    }
}
