//! Compares the proved library with document 01 and order 1 of document 02 written a second time: `compare [CALLS] [SEED]`, or
//! `compare --case 'CALL : WORDS'` to repeat one case. The last line is `N passed, M failed`.
//! `compare --scripts PROGRAM COUNT SEED` does the same with the program `stand`, and `compare --stand` prints what
//! that program has to print for its input.

mod bench;
mod call;
mod choose;
mod damage;
mod dice;
mod firing;
mod groups;
#[path = "../../../bindings/rust/src/raw.rs"]
mod library;
mod marked;
mod misses;
mod paper;
mod records;
mod run;
mod scripts;
mod shrink;
mod stand;
mod sums;
mod tables;

use std::io::Read;
use std::process::ExitCode;
use std::time::Instant;

/// From so many calls on, every code has to be seen from every call that can give it, and every kind of miss.
const ENOUGH_CALLS: u64 = 100_000;

fn main() -> ExitCode {
    let args: Vec<String> = std::env::args().skip(1).collect();
    let number = |arg: &str| arg.parse().ok();
    let words: Vec<&str> = args.iter().map(String::as_str).collect();
    let done = match words[..] {
        ["--case", case] => repeat(case),
        ["--stand"] => print_stand(),
        ["--scripts", program, count, seed] => {
            number(count).zip(number(seed)).map(|(count, seed)| all_scripts(program, count, seed))
        }
        [] => Some(all(1_000_000, 1)),
        [calls] => number(calls).map(|calls| all(calls, 1)),
        [calls, seed] => number(calls).zip(number(seed)).map(|(calls, seed)| all(calls, seed)),
        _ => None,
    };
    done.unwrap_or_else(|| {
        eprintln!("usage: compare [CALLS] [SEED] | --case 'CALL : WORDS' | --scripts PROGRAM COUNT SEED | --stand");
        ExitCode::from(2)
    })
}

/// The last line and the status that goes with it.
fn verdict(passed: u64, failed: u64) -> ExitCode {
    println!("{passed} passed, {failed} failed");
    if failed == 0 {
        ExitCode::SUCCESS
    } else {
        ExitCode::FAILURE
    }
}

/// What `stand` has to print for the bytes read.
fn print_stand() -> Option<ExitCode> {
    let mut input = Vec::new();
    std::io::stdin().read_to_end(&mut input).ok()?;
    print!("{}", stand::stand(&input));
    Some(ExitCode::SUCCESS)
}

/// Compares scripts in groups of a hundred.
fn all_scripts(program: &str, count: u64, seed: u64) -> ExitCode {
    let groups = count.div_ceil(100);
    let same = (0..groups).filter(|group| scripts::scripts(program, 100, seed + group)).count() as u64;
    verdict(same, groups - same)
}

/// Runs every group.
fn all(calls: u64, seed: u64) -> ExitCode {
    let start = Instant::now();
    let (mut passed, mut failed, mut done) = (0, 0, 0);
    let mut tally = run::Tally::default();
    let marked: (&str, u64, groups::Work) = ("the worked examples M1 to M8", 0, marked::marked);
    for (number, (name, share, work)) in std::iter::once(marked).chain(groups::GROUPS).enumerate() {
        let begun = Instant::now();
        let mut run = run::Run { dice: dice::Dice::new(seed, number as u64), calls: 0, tally: &mut tally };
        let good = work(&mut run, (calls * share).div_ceil(1000)).is_ok();
        let (verdict, seconds) = (if good { "same" } else { "DIFFERS" }, begun.elapsed().as_secs_f64());
        println!("{verdict:<8}{:>9} calls {seconds:>6.2} s  {name}", run.calls);
        done += run.calls;
        if good {
            passed += 1
        } else {
            failed += 1
        }
    }
    tally.show();
    println!("{done} calls, seed {seed}, {:.1} s", start.elapsed().as_secs_f64());
    if done >= ENOUGH_CALLS && failed == 0 {
        let missing = tally.unseen();
        if missing.is_empty() {
            passed += 1
        } else {
            failed += 1
        }
        println!("codes, rules and misses that were not seen: {}", if missing.is_empty() { "none" } else { "some" });
        missing.iter().for_each(|what| println!("  {what}"));
    }
    verdict(passed, failed)
}

/// Runs one case given as a difference prints it; none if it cannot be read.
fn repeat(case: &str) -> Option<ExitCode> {
    let (call, words) = case.split_once(':')?;
    let words: Option<Vec<u32>> = words.split_whitespace().map(|word| word.parse().ok()).collect();
    let (call, words) = (call::Call::read(call)?, words?);
    Some(match bench::difference(&words, call) {
        Some(found) => {
            shrink::show(&found);
            verdict(0, 1)
        }
        None => {
            println!("both answer {:?}", call.by_paper(&mut words.clone()));
            verdict(1, 0)
        }
    })
}
