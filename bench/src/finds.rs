//! find on a table and on the trees that hold the same records: hits and misses in an order shuffled anew each round.

use crate::batches::Batch;
use crate::clock::{contest, timed, turn_about, Best, Over, Turn};
use crate::dice::Dice;
use crate::stores::{bare, now_and_before, promised, tree_peers, Find, Store, PLAIN};
use crate::words::KEY_ABSENT;
use std::hint::black_box;
use std::time::Duration;

#[derive(Clone, Copy, PartialEq)]
pub enum Wanted {
    Hits,
    Misses,
}

/// How the finds of a round follow each other.
#[derive(Clone, Copy, PartialEq)]
pub enum Pace {
    /// Each is called as soon as the processor can: the walks of two finds may overlap.
    Free,
    /// Each waits for the answer before it: its key is looked up at a place that the answer tells.
    Waiting,
}

/// At least so many finds in one turn.
const FINDS: usize = 12_000;

/// But in a turn of ours and an earlier library alone only as many as take so many seconds, which is shorter than most
/// noise lasts; though at least a few.
const SHORT_TURN: f64 = 0.001;
const FEW: usize = 100;

/// The keys of one round: every record as often as any other, a miss being one above a record's key.
fn keys(batches: &[Batch], wanted: Wanted, round: u64) -> Vec<u32> {
    let miss = u32::from(wanted == Wanted::Misses);
    let mut dice = Dice::new(90_000 + round);
    let mut all = Vec::with_capacity(FINDS + batches.len());
    while all.len() < FINDS {
        let from = all.len();
        all.extend(batches.iter().map(|b| b.key + miss));
        dice.shuffle(&mut all[from..]);
    }
    all
}

/// Finds all keys in a store, and gives a sum of every answer.
fn find_all(store: &Store, find: Find, keys: &[u32], pace: Pace) -> u64 {
    let find = black_box(find);
    let (at, len) = store.place();
    let mut out = [0; 5];
    let (mut sum, mut step) = (0u64, 0);
    // The answers to these keys all have the same code, 0 or 5: take it away again for the place of the next key.
    let code = store.find(keys[0])[0];
    for i in 0..keys.len() {
        let key = keys[i + step];
        unsafe { find(at, len, key, out.as_mut_ptr()) };
        sum = sum.wrapping_add(out[0] + out[2] + out[4]);
        if pace == Pace::Waiting {
            step = out[0].wrapping_sub(code) as usize;
        }
    }
    sum
}

/// All stores that find: the words as they are lent, and trees that got the same postings.
fn stores(words: &[u32], postings: &[Batch]) -> Vec<Store> {
    let on_words = promised().into_iter().chain(bare()).map(|calls| Store::of_words(calls, words));
    let grown = |calls| {
        let mut store = Store::new(calls, postings.len());
        for b in postings {
            store.post(b.key, b.pieces, b.state);
        }
        store
    };
    on_words.chain(tree_peers().into_iter().map(grown)).collect()
}

/// Every contestant gives the same answers, as far as it has to: the trees do not count the slots visited, and only ours
/// and plain Rust name the neighbours of a miss.
fn compare(stores: &[Store], keys: &[u32]) {
    for &key in keys {
        let answer = stores[0].find(key);
        for store in &stores[1..] {
            let mut other = store.find(key);
            if store.words.is_empty() {
                other[3] = answer[3];
            }
            if answer[0] == KEY_ABSENT && store.calls.name != PLAIN {
                other[2..4].copy_from_slice(&answer[2..4]);
            }
            assert_eq!(answer, other, "find {key}: ours and {}", store.calls.name);
        }
    }
}

/// One turn of a find: an untimed pass over as many keys as there are records, then the seconds of one call.
fn turn(store: &Store, find: Find, keys: &[u32], records: usize, pace: Pace) -> f64 {
    black_box(find_all(store, find, &keys[..records], pace));
    timed(keys.len(), || find_all(store, find, keys, pace))
}

/// Seconds for one find of each contestant.
pub fn finds(words: &[u32], postings: &[Batch], wanted: Wanted, pace: Pace, share: Duration) -> Vec<Best> {
    let stores = stores(words, postings);
    compare(&stores, &keys(postings, wanted, 0)[..postings.len()]);
    let turns = stores.iter().map(|store| Turn {
        name: store.calls.name,
        go: Box::new(move |round| turn(store, store.calls.find, &keys(postings, wanted, round), postings.len(), pace)),
    });
    contest(turns.collect(), share)
}

/// Ours over the earlier library, in turns on the very same words; none if there is no earlier library.
pub fn over_before(words: &[u32], postings: &[Batch], wanted: Wanted, share: Duration) -> Option<Over> {
    let (now, before) = now_and_before()?;
    let store = &Store::of_words(now, words);
    let seconds = turn(store, now.find, &keys(postings, wanted, 0)[..FEW], FEW, Pace::Free);
    let calls = ((SHORT_TURN / seconds) as usize).clamp(FEW, FINDS);
    let turns = |find| {
        move |round| {
            let keys = &keys(postings, wanted, round)[..calls];
            turn(store, find, keys, calls.min(postings.len()), Pace::Free)
        }
    };
    Some(turn_about(turns(now.find), turns(before.find), share))
}
