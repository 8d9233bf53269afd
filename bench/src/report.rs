//! Tables and lists in Markdown.

use crate::clock::{of, Best};
use crate::stores::OURS;

/// Seconds in the unit that suits them, with three digits.
pub fn time(seconds: f64) -> String {
    let (number, unit) = match seconds {
        s if s < 9.995e-6 => (s * 1e9, "ns"),
        s if s < 9.995e-3 => (s * 1e6, "µs"),
        s if s < 9.995 => (s * 1e3, "ms"),
        s => (s, "s"),
    };
    match number {
        n if n < 9.995 => format!("{n:.2} {unit}"),
        n if n < 99.95 => format!("{n:.1} {unit}"),
        n => format!("{n:.0} {unit}"),
    }
}

/// A ratio, with at least two digits that say something.
pub fn ratio(r: f64) -> String {
    match r {
        r if r < 0.00995 => format!("{r:.4}"),
        r if r < 0.0995 => format!("{r:.3}"),
        r if r < 99.95 => format!("{r:.2}"),
        r => format!("{r:.0}"),
    }
}

/// A count with its thousands apart.
pub fn count(number: u64) -> String {
    match number {
        n if n < 1_000 => n.to_string(),
        n => format!("{},{:03}", count(n / 1_000), n % 1_000),
    }
}

/// One workload with what each contestant took for one call.
pub struct Row {
    pub what: String,
    pub best: Vec<Best>,
}

impl Row {
    pub fn new(what: impl Into<String>, best: Vec<Best>) -> Row {
        Row { what: what.into(), best }
    }

    /// Ours over another contestant.
    pub fn over(&self, name: &str) -> Option<f64> {
        Some(of(&self.best, OURS)? / of(&self.best, name)?)
    }

    /// The fastest of some contestants.
    pub fn fastest(&self, names: &[&'static str]) -> Option<&'static str> {
        let seconds = |name: &&&str| of(&self.best, name).unwrap_or(f64::MAX);
        names
            .iter()
            .filter(|name| of(&self.best, name).is_some())
            .min_by(|a, b| seconds(a).total_cmp(&seconds(b)))
            .copied()
    }
}

/// A table with a column for each contestant: the time of one call, and below it ours divided by that.
pub fn table(rows: &[Row]) -> String {
    let mut names: Vec<&str> = Vec::new();
    for best in rows.iter().flat_map(|row| &row.best) {
        if !names.contains(&best.name) {
            names.push(best.name);
        }
    }
    let mut text = format!("| | {} |\n|---|{}\n", names.join(" | "), "--:|".repeat(names.len()));
    for row in rows {
        text += &format!("| {} |", row.what);
        for name in &names {
            text += &match (of(&row.best, name), row.over(name)) {
                (Some(seconds), Some(_)) if *name == OURS => format!(" {} |", time(seconds)),
                (Some(seconds), Some(over)) => format!(" {}<br>×{} |", time(seconds), ratio(over)),
                _ => " |".to_string(),
            };
        }
        text.push('\n');
    }
    text
}

/// The least and the most turns that a contestant had in these workloads.
pub fn turns(rows: &[&[Row]]) -> (u32, u32) {
    let turns = || rows.iter().flat_map(|rows| rows.iter()).flat_map(|row| &row.best).map(|best| best.turns);
    (turns().min().unwrap_or(0), turns().max().unwrap_or(0))
}

/// Puts each text in the place that the template marks with its name in double braces.
pub fn filled(template: &str, texts: &[(&str, String)]) -> String {
    let mut page = template.to_string();
    for (name, text) in texts {
        page = page.replace(&format!("{{{{{name}}}}}"), text.trim_end());
    }
    assert!(!page.contains("{{"), "a place of the template that nothing fills");
    page
}
