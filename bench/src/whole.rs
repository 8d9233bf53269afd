//! The calls that look at the whole table: check, rank, total and worth.

use crate::batches::Batch;
use crate::before::{before, BEFORE};
use crate::clock::{contest, timed, Best, Turn};
use crate::dice::Dice;
use crate::stores::{OURS, PLAIN};
use crate::words::Answer;
use crate::{ours, plain};
use std::hint::black_box;
use std::time::Duration;

/// A call with one number, or with none.
#[derive(Clone, Copy)]
enum Call {
    Alone(unsafe extern "C" fn(*const u32, usize, *mut u64)),
    With(unsafe extern "C" fn(*const u32, usize, u32, *mut u64)),
}

impl Call {
    fn make(self, words: &[u32], number: u32) -> Answer {
        let mut out = [u64::MAX; 5];
        let (t, n, o) = (words.as_ptr(), words.len(), out.as_mut_ptr());
        unsafe {
            match self {
                Call::Alone(call) => call(t, n, o),
                Call::With(call) => call(t, n, number, o),
            }
        }
        out
    }
}

pub const NAMES: [&str; 4] = ["check", "rank", "total", "worth"];

/// Plain Rust in the form that ours has to have, where its own is another.
const WALKING: &str = "plain Rust, walking";

fn contestants(name: &str) -> Vec<(&'static str, Call)> {
    let (a, b) = match name {
        "check" => (Call::Alone(ours::ftk_check), Call::Alone(plain::plain_check)),
        "rank" => (Call::With(ours::ftk_rank), Call::With(plain::plain_rank)),
        "total" => (Call::With(ours::ftk_total), Call::With(plain::plain_total)),
        _ => (Call::Alone(ours::ftk_worth), Call::Alone(plain::plain_worth)),
    };
    let mut all = vec![(OURS, a), (PLAIN, b)];
    if name == "total" {
        all.push((WALKING, Call::With(plain::plain_total_walking)));
    }
    all.extend(before().map(|b| {
        let call = match name {
            "check" => Call::Alone(b.check),
            "rank" => Call::With(b.rank),
            "total" => Call::With(b.total),
            _ => Call::Alone(b.worth),
        };
        (BEFORE, call)
    }));
    all
}

/// The numbers of a turn: ranks, or keys of records. Every turn has the same, since the best one counts and a call may
/// take longer for one number than for another.
fn numbers(name: &str, batches: &[Batch], count: usize) -> Vec<u32> {
    let mut dice = Dice::new(30_000);
    let pick = |_| {
        let i = dice.below(batches.len());
        if name == "rank" {
            i as u32 + 1
        } else {
            batches[i].key
        }
    };
    (0..count).map(pick).collect()
}

/// Seconds for one call of each contestant.
pub fn whole(name: &'static str, words: &[u32], batches: &[Batch], share: Duration) -> Vec<Best> {
    let count = (16_000 / batches.len()).max(16);
    for number in numbers(name, batches, 50) {
        let answers: Vec<Answer> = contestants(name).iter().map(|(_, call)| call.make(words, number)).collect();
        assert!(answers.iter().all(|a| *a == answers[0] && a[0] == 0), "{name} {number}: {answers:?}");
    }
    let turns = contestants(name).into_iter().map(|(who, call)| Turn {
        name: who,
        go: Box::new(move |_| {
            let numbers = numbers(name, batches, count);
            let call = black_box(call);
            let all = || numbers.iter().fold(0u64, |sum, &n| sum.wrapping_add(call.make(words, n).iter().sum()));
            black_box(call.make(words, numbers[0]));
            timed(count, all)
        }),
    });
    contest(turns.collect(), share)
}
