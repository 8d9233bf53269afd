//! What is wanted of each call, as a line that says yes or no.

use crate::report::{ratio, Row};
use crate::stand::Stood;
use crate::stores::OURS;
use crate::stores::{BARE, PLAIN, TREES};
use crate::tidying::{Run, RESCAN};

/// A wish with what was measured; no number where it could not be measured here.
struct Target {
    what: String,
    wanted: String,
    measured: Option<(String, bool)>,
}

pub struct Targets(Vec<Target>);

impl Targets {
    pub fn new() -> Targets {
        Targets(Vec::new())
    }

    fn add(&mut self, what: String, wanted: String, measured: Option<(String, bool)>) {
        self.0.push(Target { what, wanted, measured });
    }

    fn at_most(&mut self, what: String, limit: f64, measured: Option<f64>) {
        self.add(what, format!("at most {limit}"), measured.map(|m| (ratio(m), m <= limit)));
    }

    /// find after tidying, beside the best tree and the bare walk as anybody would write it.
    pub fn find(&mut self, row: &Row) {
        for (names, limit) in [(&TREES[..], 0.95), (&BARE[..1], 1.1)] {
            if let Some(name) = row.fastest(names) {
                self.at_most(format!("find, {}, over {name}", row.what), limit, row.over(name));
            }
        }
    }

    /// A call beside plain Rust of the same promise.
    pub fn same_promise(&mut self, row: &Row) {
        self.at_most(format!("{}, over plain Rust", row.what), 1.1, row.over(PLAIN));
    }

    /// One firing on a large and on a small table, and the whole run beside the rescan.
    pub fn tidy(&mut self, small: &Run, large: &Run) {
        let firing = large.firing(OURS).zip(small.firing(OURS)).map(|(l, s)| l / s);
        self.at_most("one firing of tidy, 4,095 ascending, over one at 255".to_string(), 1.5, firing);
        let gain = large.firing(RESCAN).zip(large.firing(OURS)).map(|(rescan, ours)| rescan / ours);
        let measured = gain.map(|g| (format!("{} times", ratio(g)), g >= 100.0));
        self.add("tidy of 4,095 ascending, faster than the rescan".to_string(), "at least 100 times".into(), measured);
    }

    /// A whole run of tidy beside plain Rust that keeps the same set of slots.
    pub fn whole_run(&mut self, row: &Row) {
        self.at_most(format!("tidy, {}, over plain Rust", row.what), 1.2, row.over(PLAIN));
    }

    /// The loop of stand.
    pub fn stand(&mut self, stood: &Stood) {
        let lines = stood.lines_inside().unwrap_or_else(|| stood.lines_as_process());
        let what = format!("find lines of stand, {}", stood.wanted);
        let measured = Some((format!("{:.2} million a second", lines / 1e6), lines >= 3e6));
        self.add(what, "at least 3 million a second".into(), measured);
    }

    pub fn table(&self) -> String {
        let mut text = "| what | wanted | measured | met |\n|---|---|--:|---|\n".to_string();
        for target in &self.0 {
            let (measured, met) = match &target.measured {
                None => ("not measured here", "-"),
                Some((measured, met)) => (measured.as_str(), if *met { "yes" } else { "**no**" }),
            };
            text += &format!("| {} | {} | {measured} | {met} |\n", target.what, target.wanted);
        }
        let met = self.0.iter().filter(|target| matches!(target.measured, Some((_, true)))).count();
        text + &format!("\n{met} of {} met.\n", self.0.len())
    }
}
