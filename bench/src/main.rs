//! Measures the proved library beside its peers in one run: `bench FOLDER` prints the results page to standard output,
//! and writes plot.svg and the inputs of `stand` to the folder. bench/run builds it and tells it where things are.

mod agree;
mod bare;
mod batches;
mod before;
mod clock;
mod dice;
mod finds;
mod machine;
mod measures;
#[allow(dead_code)] // the bench has no use for three of the calls
#[path = "../../bindings/rust/src/raw.rs"]
mod ours;
mod plain;
mod plot;
mod postings;
mod report;
mod stand;
mod stores;
mod targets;
mod tidying;
mod trees;
mod whole;
mod words;

use clock::Over;
use report::{count, filled, ratio, table, time, Row};
use stand::Stood;
use std::path::PathBuf;
use stores::BARE;
use targets::Targets;
use tidying::Run;

/// The page with places for the numbers.
const PAGE: &str = include_str!("../RESULTS.in.md");

fn main() {
    let folder = PathBuf::from(std::env::args().nth(1).expect("usage: bench FOLDER"));
    let load = machine::load();
    agree::agree(agree::CASES);
    let finds = measures::all_finds();
    let over_before = measures::all_over_before();
    let records = measures::all_records();
    let whole = measures::all_whole();
    let tidies = measures::all_tidies();
    let small = measures::small_tidies();
    let by_size = measures::tidies_by_size();
    let panels = measures::panels(&by_size);
    let stands = measures::all_stands(&folder);
    std::fs::write(folder.join("plot.svg"), plot::plot(&panels)).expect("a folder that can be written");

    let mut targets = Targets::new();
    finds[..2].iter().for_each(|row| targets.find(row));
    records.iter().chain(&whole).for_each(|row| targets.same_promise(row));
    targets.tidy(&by_size[2].1, &by_size[4].1);
    let tidy_rows = tidy_rows(&by_size[4].1, tidies, small);
    tidy_rows.iter().for_each(|row| targets.whole_run(row));
    stands.iter().for_each(|stood| targets.stand(stood));

    let turns = report::turns(&[&finds, &records, &whole]);
    let texts = [
        ("date", machine::told("TODAY")),
        ("machine", machine::machine()),
        ("tools", machine::told("TOOLS")),
        ("load", load),
        ("forms", machine::told("FORMS")),
        ("absent", machine::absent()),
        ("targets", targets.table()),
        ("limit", limit(&finds[..2])),
        ("finds", table(&finds) + &before_lines(&over_before)),
        ("records", table(&records)),
        ("whole", table(&whole)),
        ("tidies", table(&tidy_rows)),
        ("firings", firings(&by_size)),
        ("stand", stand_table(&stands)),
        ("cases", count(agree::CASES)),
        ("turns", format!("{} to {}", turns.0, turns.1)),
        ("bound", measures::BOUND.to_string()),
        ("budget", measures::BUDGET.to_string()),
    ];
    print!("{}", filled(PAGE, &texts));
}

/// What find takes of the fastest bare walk, whatever its form.
fn limit(finds: &[Row]) -> String {
    let one = |row: &Row| {
        let name = row.fastest(&BARE)?;
        Some(format!("{} of the {name} for {}", ratio(row.over(name)?), row.what))
    };
    let all: Vec<String> = finds.iter().filter_map(one).collect();
    format!("No target, but the limit: beside the fastest of the four bare walks, find takes {}.", all.join(" and "))
}

/// What find takes of the earlier library's time, a line for each workload; nothing if there was no such library.
fn before_lines(all: &[(String, Over)]) -> String {
    if all.is_empty() {
        return String::new();
    }
    let mut text =
        "\nOurs beside the earlier library alone, both loaded in the same way and called in turns".to_string();
    text += " on the same words; each ratio is the middle one of all rounds.\n\n";
    for (what, over) in all {
        let rounds = count(over.rounds as u64);
        text += &format!("- find, {what}: {:.3} of before ({rounds} rounds)\n", over.ratio);
    }
    text
}

/// The runs of tidy as rows, with their firings.
fn tidy_rows(ascending: &Run, tidies: Vec<(String, Run)>, small: Run) -> Vec<Row> {
    let mut rows = vec![Row::new(format!("ascending: {} firings", count(ascending.firings)), ascending.best.clone())];
    for (name, run) in tidies {
        rows.push(Row::new(format!("{name}: {} firings", count(run.firings)), run.best));
    }
    let firings = count(small.firings);
    let grown = format!("one posting with tidy({}) after it, 4,095 times: {firings} firings", measures::BUDGET);
    rows.push(Row::new(grown, small.best));
    rows
}

/// What one firing costs at each size.
fn firings(by_size: &[(usize, Run)]) -> String {
    let what = |size: usize, run: &Run| format!("{} records: {} firings", count(size as u64), count(run.firings));
    let rows: Vec<Row> = by_size.iter().map(|(size, run)| Row::new(what(*size, run), run.firings_of_all())).collect();
    table(&rows)
}

fn stand_table(stands: &[Stood]) -> String {
    let mut text = "| input | find lines | loop in one process | as a process | process with no input |".to_string();
    text +=
        " lines a second, in one process | lines a second, process less empty one |\n|---|--:|--:|--:|--:|--:|--:|\n";
    let million = |lines: f64| format!("{:.2} million", lines / 1e6);
    for s in stands {
        let inside = s.inside.map_or("not measured here".into(), time);
        let lines = s.lines_inside().map_or("-".into(), million);
        let (process, empty) = (time(s.process), time(s.empty));
        let outside = million(s.lines_as_process());
        text += &format!(
            "| {} | {} | {inside} | {process} | {empty} | {lines} | {outside} |\n",
            s.wanted,
            count(s.finds as u64)
        );
    }
    if stands.is_empty() {
        text += "| the program was not built here | | | | | | |\n";
    }
    text
}
