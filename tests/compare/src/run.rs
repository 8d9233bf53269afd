//! A run: groups of compared calls, each with its own dice; what was seen and what differed.

use crate::bench::Bench;
use crate::call::{Call, CODES, NAMES};
use crate::choose::any_call;
use crate::dice::Dice;
use crate::misses::Misses;
use crate::records::Answer;
use crate::shrink::{show, shrink};

/// What the comparisons have seen: how often each call gave each code and each rule was fired, and which misses.
#[derive(Default)]
pub struct Tally {
    codes: [[u64; 11]; NAMES.len()],
    rules: [u64; 9],
    misses: Misses,
}

/// One group at work.
pub struct Run<'a> {
    pub dice: Dice,
    pub calls: u64,
    pub tally: &'a mut Tally,
}

/// A group ends at its first difference, which has then been printed.
pub struct Differs;

impl Run<'_> {
    /// Compares one call, and holds a miss to the list of all keys.
    pub fn call(&mut self, bench: &mut Bench, call: Call) -> Result<Answer, Differs> {
        self.calls += 1;
        match bench.run(call) {
            Ok(answer) => {
                self.tally.count(call, answer[0] as usize);
                match self.tally.misses.look(call, bench.words(), &answer) {
                    None => Ok(answer),
                    Some(fault) => Err(self.fault(bench.words(), &fault)),
                }
            }
            Err(found) => {
                show(&shrink(*found));
                Err(Differs)
            }
        }
    }

    /// Compares a row of chosen calls on one table.
    pub fn row(&mut self, words: &[u32], length: usize) -> Result<(), Differs> {
        let mut bench = Bench::new(words);
        for _ in 0..length {
            let call = any_call(&mut self.dice, bench.words());
            self.call(&mut bench, call)?;
        }
        Ok(())
    }

    /// Says what is wrong with a table that both sides agree on.
    pub fn fault(&self, words: &[u32], what: &str) -> Differs {
        println!("  {what}");
        println!("  words {words:?}");
        Differs
    }
}

impl Tally {
    fn count(&mut self, call: Call, code: usize) {
        self.codes[call.name][code] += 1;
        if NAMES[call.name] == "fire" && code == 0 {
            self.rules[call.args[0] as usize] += 1;
        }
    }

    /// The codes that a call can give, the rules, and the kinds of misses, that no comparison has seen.
    pub fn unseen(&self) -> Vec<String> {
        let mut missing = Vec::new();
        for (name, codes) in CODES.iter().enumerate() {
            for &code in codes.iter().filter(|&&code| self.codes[name][code as usize] == 0) {
                missing.push(format!("{} with code {code}", NAMES[name]));
            }
        }
        missing.extend((1..=8).filter(|&rule| self.rules[rule] == 0).map(|rule| format!("rule {rule} fired")));
        missing.extend(self.misses.unseen());
        missing
    }

    /// How often each call gave each code, one call a line, then how often each rule was fired, then the misses.
    pub fn show(&self) {
        let row = |name: &str, counts: &[u64]| {
            println!("{name:<8}{}", counts.iter().map(|count| format!("{count:>9}")).collect::<String>())
        };
        row("code", &[0, 1, 2, 3, 4, 5, 6, 7, 8, 9]);
        for (name, counts) in NAMES.iter().zip(&self.codes) {
            row(name, &counts[..10]);
        }
        row("rule", &[1, 2, 3, 4, 5, 6, 7, 8]);
        row("fired", &self.rules[1..]);
        self.misses.show();
    }
}
