//! Postings into an empty store and drops out of a full one, each until there is nothing left to do.

use crate::batches::{in_order, posted, Batch, Order};
use crate::clock::{contest, timed, Best, Turn};
use crate::dice::Dice;
use crate::stores::{promised, tree_peers, Calls, Store};
use crate::words::CHANGE;
use std::hint::black_box;
use std::time::Duration;

/// At least so many postings or drops in one turn.
const CALLS: usize = 4_095;

/// How many stores of so many records one turn fills or empties.
fn stores_of(count: usize) -> usize {
    CALLS.div_ceil(count)
}

fn contestants() -> Vec<Calls> {
    promised().into_iter().chain(tree_peers()).collect()
}

/// Posts all batches, and gives a sum of every answer.
fn post_all(store: &mut Store, list: &[Batch]) -> u64 {
    let post = black_box(store.calls.post.expect("a contestant that posts"));
    let (at, len) = store.place();
    let (mut out, mut sum) = ([0; 5], 0u64);
    for b in list {
        unsafe { post(at, len, b.key, b.pieces, b.state, out.as_mut_ptr()) };
        sum = sum.wrapping_add(out[0] + out[1] + out[2]);
    }
    sum
}

/// Drops all keys, and gives a sum of every answer.
fn drop_all(store: &mut Store, keys: &[u32]) -> u64 {
    let drop = black_box(store.calls.drop.expect("a contestant that drops"));
    let (at, len) = store.place();
    let (mut out, mut sum) = ([0; 5], 0u64);
    for &key in keys {
        unsafe { drop(at, len, key, out.as_mut_ptr()) };
        sum = sum.wrapping_add(out[0] + out[1] + out[2]);
    }
    sum
}

/// The answers are the same, with all words where both have words, or else with the code and the change number.
fn compare(stores: &mut [Store], what: &str, call: impl Fn(&mut Store) -> [u64; 5]) {
    let answers: Vec<[u64; 5]> = stores.iter_mut().map(call).collect();
    for (store, answer) in stores.iter().zip(&answers).skip(1) {
        let name = store.calls.name;
        assert_eq!(answers[0][..2], answer[..2], "{what}: ours and {name}");
        if !store.words.is_empty() {
            assert_eq!(answers[0], *answer, "{what}: ours and {name}");
            assert!(stores[0].words == store.words, "{what}: the words of ours and {name}");
        }
    }
}

/// Seconds for one posting of each contestant.
pub fn postings(batches: &[Batch], order: Order, share: Duration) -> Vec<Best> {
    let mut stores: Vec<Store> = contestants().into_iter().map(|calls| Store::new(calls, batches.len())).collect();
    for b in in_order(batches, order, 0) {
        compare(&mut stores, "post", |store| store.post(b.key, b.pieces, b.state));
    }
    let turns = contestants().into_iter().map(|calls| Turn {
        name: calls.name,
        go: Box::new(move |round| {
            let list = in_order(batches, order, round);
            let mut stores: Vec<Store> = (0..stores_of(list.len())).map(|_| Store::new(calls, list.len())).collect();
            let calls = stores.len() * list.len();
            timed(calls, || stores.iter_mut().map(|store| post_all(store, &list)).fold(0, u64::wrapping_add))
        }),
    });
    contest(turns.collect(), share)
}

/// A full store: these words, or a tree that got the batches in random order.
fn full(calls: Calls, words: &[u32], batches: &[Batch]) -> Store {
    let mut store = Store::new(calls, batches.len());
    if store.words.is_empty() {
        post_all(&mut store, &in_order(batches, Order::Random, 0));
        store
    } else {
        Store::of_words(calls, words)
    }
}

/// Seconds for one drop of each contestant, from a full store until it is empty.
pub fn drops(words: &[u32], batches: &[Batch], share: Duration) -> Vec<Best> {
    let keys = move |round| {
        let mut keys: Vec<u32> = batches.iter().map(|b| b.key).collect();
        Dice::new(50_000 + round).shuffle(&mut keys);
        keys
    };
    let start = posted(&in_order(batches, Order::Random, 0))[CHANGE];
    let mut stores: Vec<Store> = contestants().into_iter().map(|calls| full(calls, words, batches)).collect();
    assert_eq!(start, words[CHANGE]);
    for key in keys(0) {
        compare(&mut stores, "drop", |store| store.drop_record(key));
    }
    let turns = contestants().into_iter().map(|calls| Turn {
        name: calls.name,
        go: Box::new(move |round| {
            let keys = keys(round);
            let mut store = full(calls, words, batches);
            timed(keys.len(), || drop_all(&mut store, &keys))
        }),
    });
    contest(turns.collect(), share)
}
