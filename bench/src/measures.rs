//! All that is measured, in the order in which it is measured.

use crate::batches::{by_stamp, in_order, posted, with_random_registers, Batch, Order};
use crate::clock::{Best, Over};
use crate::finds::{finds, over_before, Pace, Wanted};
use crate::plot::{Line, Panel};
use crate::postings::{drops, postings};
use crate::report::Row;
use crate::stand::{stand, Stood};
use crate::stores::BARE;
use crate::tidying::{small_budgets, tidied, whole_runs, Run};
use crate::whole::{whole, NAMES};
use std::path::Path;
use std::time::Duration;

/// The sizes of the plot; the tables are about the last.
pub const SIZES: [usize; 5] = [15, 63, 255, 1_023, 4_095];
const FULL: usize = SIZES[4];

/// The time that each contestant has in a workload of the tables, and of the plot; a find is short and its tables close,
/// so there each has four times as long to meet a quiet moment, and ours beside an earlier library still longer.
const SHARE: Duration = Duration::from_millis(250);
const FIND_SHARE: Duration = Duration::from_millis(1_000);
const BEFORE_SHARE: Duration = Duration::from_millis(3_000);
const SMALL_SHARE: Duration = Duration::from_millis(60);

/// The largest height that the random registers get.
pub const BOUND: u32 = 40;

/// The budget of the small tidies.
pub const BUDGET: u32 = 8;

fn say(what: &str) {
    eprintln!("measuring {what}");
}

/// The full tables that find is measured on, after tidying and before, with the postings that made them.
fn find_tables() -> [(&'static str, Vec<u32>, Vec<Batch>); 3] {
    let batches = by_stamp(FULL);
    let random = in_order(&batches, Order::Random, 0);
    let loose = posted(&random);
    let chain = posted(&batches);
    [
        ("after tidying", tidied(&loose), random.clone()),
        ("before tidying, random postings", loose, random),
        ("before tidying, ascending postings", chain, batches),
    ]
}

const BOTH: [(&str, Wanted); 2] = [("hits", Wanted::Hits), ("misses", Wanted::Misses)];

/// find on the full table: after tidying and before, hits and misses.
pub fn all_finds() -> Vec<Row> {
    let tables = find_tables();
    let mut rows = Vec::new();
    for (when, words, list) in &tables {
        for (name, wanted) in BOTH {
            let what = format!("{name} {when}");
            say(&format!("find, {what}"));
            rows.push(Row::new(what, finds(words, list, wanted, Pace::Free, FIND_SHARE)));
        }
    }
    let (_, tight, random) = &tables[0];
    let waiting = finds(tight, random, Wanted::Hits, Pace::Waiting, FIND_SHARE);
    rows.push(Row::new("hits after tidying, each waiting for the answer before", waiting));
    rows
}

/// The same finds, but for those that wait, of ours over the earlier library; nothing if there is none.
pub fn all_over_before() -> Vec<(String, Over)> {
    let mut all = Vec::new();
    for (when, words, list) in &find_tables() {
        for (name, wanted) in BOTH {
            let over = over_before(words, list, wanted, BEFORE_SHARE);
            all.extend(over.map(|over| (format!("{name} {when}"), over)));
        }
    }
    all
}

/// Postings in three orders, and drops.
pub fn all_records() -> Vec<Row> {
    let batches = by_stamp(FULL);
    let mut rows = Vec::new();
    for order in [Order::Ascending, Order::Descending, Order::Random] {
        say(&format!("post, {}", order.name()));
        rows.push(Row::new(format!("post, {}", order.name()), postings(&batches, order, SHARE)));
    }
    say("drop");
    let tight = tidied(&posted(&in_order(&batches, Order::Random, 0)));
    rows.push(Row::new("drop, random, after tidying", drops(&tight, &batches, SHARE)));
    rows
}

/// check, rank, total and worth on the full table after tidying.
pub fn all_whole() -> Vec<Row> {
    let batches = by_stamp(FULL);
    let tight = tidied(&posted(&in_order(&batches, Order::Random, 0)));
    let row = |name: &'static str| {
        say(name);
        Row::new(name, whole(name, &tight, &batches, SHARE))
    };
    NAMES.into_iter().map(row).collect()
}

/// Whole runs of tidy on full tables of several shapes; the ascending one stands among those by size.
pub fn all_tidies() -> Vec<(String, Run)> {
    let batches = by_stamp(FULL);
    let mut runs = Vec::new();
    for order in [Order::Descending, Order::Random, Order::Zigzag] {
        say(&format!("tidy, {}", order.name()));
        let words = posted(&in_order(&batches, order, 0));
        runs.push((order.name().to_string(), whole_runs(&words, SHARE)));
    }
    say("tidy, random registers");
    let words = with_random_registers(&posted(&in_order(&batches, Order::Random, 0)), BOUND);
    runs.push((format!("random, heights 0 to {BOUND} in the registers"), whole_runs(&words, SHARE)));
    runs
}

/// A full table grown by postings in random order with a small tidy after each.
pub fn small_tidies() -> Run {
    say("small budgets");
    small_budgets(&in_order(&by_stamp(FULL), Order::Random, 0), BUDGET, SHARE)
}

/// tidy after ascending postings, for each size.
pub fn tidies_by_size() -> Vec<(usize, Run)> {
    let run = |size| {
        say(&format!("tidy of {size}"));
        (size, whole_runs(&posted(&by_stamp(size)), SHARE))
    };
    SIZES.into_iter().map(run).collect()
}

/// A panel out of what each size gave.
fn panel(title: &'static str, sizes: &[(usize, Vec<Best>)]) -> Panel {
    let shown = |best: &&Best| !BARE[1..].contains(&best.name);
    let line = |best: &Best| Line {
        name: best.name,
        points: sizes.iter().filter_map(|(n, all)| Some((*n, crate::clock::of(all, best.name)?))).collect(),
    };
    Panel { title, lines: sizes[0].1.iter().filter(shown).map(line).collect() }
}

/// The four panels of the plot.
pub fn panels(tidies: &[(usize, Run)]) -> Vec<Panel> {
    let (mut found, mut put, mut checked) = (Vec::new(), Vec::new(), Vec::new());
    for size in SIZES {
        say(&format!("find, post and check of {size}"));
        let batches = by_stamp(size);
        let random = in_order(&batches, Order::Random, 0);
        let tight = tidied(&posted(&random));
        found.push((size, finds(&tight, &random, Wanted::Hits, Pace::Free, SMALL_SHARE)));
        put.push((size, postings(&batches, Order::Random, SMALL_SHARE)));
        checked.push((size, whole(NAMES[0], &tight, &batches, SMALL_SHARE)));
    }
    let fired: Vec<(usize, Vec<Best>)> = tidies.iter().map(|(size, run)| (*size, run.firings_of_all())).collect();
    vec![
        panel("find, hits after tidying", &found),
        panel("post, random order", &put),
        panel("check, after tidying", &checked),
        panel("one firing of tidy, ascending postings", &fired),
    ]
}

/// The program stand on full inputs of hits and of misses.
pub fn all_stands(folder: &Path) -> Vec<Stood> {
    say("stand");
    [Wanted::Hits, Wanted::Misses].into_iter().filter_map(|wanted| stand(wanted, folder, SHARE)).collect()
}
