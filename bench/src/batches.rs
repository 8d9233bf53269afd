//! The batches to be posted, in the orders that a plant may post them in, and tables made of them.

use crate::dice::Dice;
use crate::stores::{promised, Store};
use crate::words::*;

#[derive(Clone, Copy)]
pub struct Batch {
    pub key: u32,
    pub pieces: u32,
    pub state: u32,
}

#[derive(Clone, Copy, PartialEq)]
pub enum Order {
    Ascending,
    Descending,
    Random,
    Zigzag,
}

impl Order {
    pub fn name(self) -> &'static str {
        match self {
            Order::Ascending => "ascending",
            Order::Descending => "descending",
            Order::Random => "random",
            Order::Zigzag => "zigzag",
        }
    }
}

/// So many batches by stamp, with gaps between: no batch has a stamp one above another's.
pub fn by_stamp(count: usize) -> Vec<Batch> {
    let mut dice = Dice::new(count as u64);
    let mut key = 1_000;
    let mut next = || {
        key += dice.between(2, 2_000);
        Batch { key, pieces: dice.between(1, MOST_PIECES), state: dice.between(1, 2) }
    };
    (0..count).map(|_| next()).collect()
}

/// The same batches in an order of posting; the random one differs from round to round.
pub fn in_order(batches: &[Batch], order: Order, round: u64) -> Vec<Batch> {
    let mut list = batches.to_vec();
    match order {
        Order::Ascending => {}
        Order::Descending => list.reverse(),
        Order::Random => Dice::new(7_000 + round).shuffle(&mut list),
        Order::Zigzag => {
            let (mut low, mut high) = (batches.iter(), batches.iter().rev());
            let ends = |i| if i % 2 == 0 { low.next() } else { high.next() };
            list = (0..batches.len()).map_while(ends).copied().collect();
        }
    }
    list
}

/// The words of a full table after these postings.
pub fn posted(list: &[Batch]) -> Vec<u32> {
    let mut store = Store::new(promised()[1], list.len());
    for b in list {
        assert_eq!(store.post(b.key, b.pieces, b.state)[0], 0);
    }
    store.words.clone()
}

/// Writes a random height up to a bound beside each link that has a son.
pub fn with_random_registers(words: &[u32], bound: u32) -> Vec<u32> {
    let mut words = words.to_vec();
    let mut dice = Dice::new(u64::from(bound));
    let (_, slots) = parts_mut(&mut words).expect("a table");
    for s in slots {
        for side in [0, 1] {
            if s[LEFT + side] != 0 {
                s[LEFTH + side] = dice.between(0, bound);
            }
        }
    }
    words
}
