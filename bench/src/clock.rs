//! Rounds: every contestant takes its turn in each, so that noise hits all alike, and the best turn counts.

use std::hint::black_box;
use std::time::{Duration, Instant};

/// One contestant's turn: it prepares itself, and tells the seconds of one call in the measured part alone.
pub struct Turn<'a> {
    pub name: &'static str,
    pub go: Box<dyn FnMut(u64) -> f64 + 'a>,
}

/// The seconds of one call in a contestant's best turn, and how many turns it had.
#[derive(Clone, Copy)]
pub struct Best {
    pub name: &'static str,
    pub seconds: f64,
    pub turns: u32,
}

/// The seconds of one of so many calls, measured over all of them; the work's result is used up.
pub fn timed<T>(calls: usize, work: impl FnOnce() -> T) -> f64 {
    let start = Instant::now();
    black_box(work());
    start.elapsed().as_secs_f64() / calls as f64
}

/// Rounds that each contestant takes part in whatever its share of time, and the most rounds.
const LEAST_ROUNDS: u64 = 7;
const MOST_ROUNDS: u64 = 1_600;

/// But once a contestant has taken so long, it has had turns enough.
const SLOW: Duration = Duration::from_millis(1_500);

/// Lets all contestants take turns until each has had its share of time. The first turn goes round with the rounds.
pub fn contest(mut turns: Vec<Turn>, share: Duration) -> Vec<Best> {
    let mut best: Vec<Best> = turns.iter().map(|t| Best { name: t.name, seconds: f64::MAX, turns: 0 }).collect();
    let mut spent = vec![Duration::ZERO; turns.len()];
    for round in 0..MOST_ROUNDS {
        let mut played = false;
        for step in 0..turns.len() {
            let i = (step + round as usize) % turns.len();
            let enough = if round < LEAST_ROUNDS { SLOW } else { share };
            if round > 0 && spent[i] > enough {
                continue;
            }
            let start = Instant::now();
            let seconds = (turns[i].go)(round);
            spent[i] += start.elapsed();
            best[i].seconds = best[i].seconds.min(seconds);
            best[i].turns += 1;
            played = true;
        }
        if !played {
            break;
        }
    }
    best
}

/// The time of one contestant over that of another: the middle ratio of so many rounds.
pub struct Over {
    pub ratio: f64,
    pub rounds: usize,
}

/// Two contestants alone, each the first in every other round, for a share of time: noise that lasts longer than a round
/// hits both alike.
pub fn turn_about(one: impl Fn(u64) -> f64, other: impl Fn(u64) -> f64, share: Duration) -> Over {
    let ratio = |round| {
        if round % 2 == 0 {
            let seconds = one(round);
            seconds / other(round)
        } else {
            let seconds = other(round);
            one(round) / seconds
        }
    };
    let start = Instant::now();
    let more = |round: &u64| *round < LEAST_ROUNDS || start.elapsed() < share;
    let mut ratios: Vec<f64> = (0..).take_while(more).map(ratio).collect();
    ratios.sort_by(f64::total_cmp);
    Over { ratio: ratios[ratios.len() / 2], rounds: ratios.len() }
}

/// The best time of a contestant.
pub fn of(results: &[Best], name: &str) -> Option<f64> {
    results.iter().find(|best| best.name == name).map(|best| best.seconds)
}
