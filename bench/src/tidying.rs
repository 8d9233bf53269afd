//! tidy: whole runs on tables of several shapes, and small budgets between postings.

use crate::batches::Batch;
use crate::before::{before, BEFORE};
use crate::clock::{contest, timed, Best, Turn};
use crate::stores::{promised, Store, OURS, PLAIN};
use crate::words::{length, Answer, SLOT_WORDS};
use crate::{ours, plain};
use std::cell::RefCell;
use std::hint::black_box;
use std::time::Duration;

pub type Tidy = unsafe extern "C" fn(*mut u32, usize, u32, *mut u64);

pub const RESCAN: &str = "rescan";
pub const ONE_LOOK: &str = "rescan, one look";

/// Those that tidy: ours, plain Rust with a set of the slots that are due, and plain Rust that scans anew each time; and
/// an earlier library if one was given.
pub fn contestants() -> Vec<(&'static str, Tidy)> {
    let mut all: Vec<(&'static str, Tidy)> = vec![
        (OURS, ours::ftk_tidy),
        (PLAIN, plain::plain_tidy),
        (RESCAN, plain::plain_rescan),
        (ONE_LOOK, plain::plain_rescan_at_one_look),
    ];
    all.extend(before().map(|b| (BEFORE, b.tidy)));
    all
}

pub fn tidy(call: Tidy, words: &mut [u32], budget: u32) -> Answer {
    let mut out = [u64::MAX; 5];
    unsafe { black_box(call)(words.as_mut_ptr(), words.len(), budget, out.as_mut_ptr()) };
    out
}

/// The table once nothing is due any more.
pub fn tidied(words: &[u32]) -> Vec<u32> {
    let mut words = words.to_vec();
    assert_eq!(tidy(plain::plain_tidy, &mut words, u32::MAX)[3], 1);
    words
}

/// What a contest on one table gave: the firings, and the seconds of one run of each contestant.
pub struct Run {
    pub firings: u64,
    pub best: Vec<Best>,
}

impl Run {
    /// Seconds for one firing.
    pub fn firing(&self, name: &str) -> Option<f64> {
        crate::clock::of(&self.best, name).map(|seconds| seconds / self.firings as f64)
    }

    /// The same for all contestants.
    pub fn firings_of_all(&self) -> Vec<Best> {
        self.best.iter().map(|best| Best { seconds: best.seconds / self.firings as f64, ..*best }).collect()
    }
}

/// Runs of tidy to the end on the same words. What each contestant's first turn left and answered is compared.
pub fn whole_runs(words: &[u32], share: Duration) -> Run {
    let copies = (1_000 / (words.len() / SLOT_WORDS)).max(1);
    let ends: RefCell<Vec<(Answer, Vec<u32>)>> = RefCell::new(Vec::new());
    let ends_of = &ends;
    let turns = contestants().into_iter().map(|(name, call)| Turn {
        name,
        go: Box::new(move |round| {
            let mut tables = vec![words.to_vec(); copies];
            let mut answer = [0; 5];
            let seconds = timed(copies, || tables.iter_mut().for_each(|words| answer = tidy(call, words, u32::MAX)));
            if round == 0 {
                ends_of.borrow_mut().push((answer, tables.swap_remove(0)));
            }
            seconds
        }),
    });
    let best = contest(turns.collect(), share);
    let ends = ends.into_inner();
    assert!(ends.iter().all(|end| *end == ends[0]), "tidy: the contestants differ");
    Run { firings: ends[0].0[2], best }
}

/// Seconds for one posting followed by a tidy with a small budget, over a table that grows until it is full.
pub fn small_budgets(list: &[Batch], budget: u32, share: Duration) -> Run {
    let ends: RefCell<Vec<(u64, Vec<u32>)>> = RefCell::new(Vec::new());
    let ends_of = &ends;
    let turns = contestants().into_iter().map(|(name, call)| Turn {
        name,
        go: Box::new(move |round| {
            let named = |who: &str| promised().into_iter().find(|calls| calls.name == who);
            let posts = named(name).or(named(PLAIN)).expect("plain Rust");
            let mut store = Store::new(posts, list.len());
            let mut firings = 0;
            let seconds = timed(list.len(), || {
                for b in list {
                    store.post(b.key, b.pieces, b.state);
                    firings += tidy(call, &mut store.words, budget)[2];
                }
            });
            assert_eq!(store.words.len(), length(list.len()));
            if round == 0 {
                ends_of.borrow_mut().push((firings, store.words.clone()));
            }
            seconds
        }),
    });
    let best = contest(turns.collect(), share);
    let ends = ends.into_inner();
    assert!(ends.iter().all(|end| *end == ends[0]), "small budgets: the contestants differ");
    Run { firings: ends[0].0, best }
}
