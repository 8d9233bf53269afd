//! The plot: cost against the number of records, both growing by factors, one panel for each call.

use crate::report::time;
use std::fmt::Write;

/// One contestant's line: records and seconds.
pub struct Line {
    pub name: &'static str,
    pub points: Vec<(usize, f64)>,
}

pub struct Panel {
    pub title: &'static str,
    pub lines: Vec<Line>,
}

const WIDE: f64 = 400.0;
const HIGH: f64 = 300.0;
const LEFT: f64 = 62.0;
const TOP: f64 = 34.0;
const LEGEND: f64 = 60.0;

/// Each contestant keeps its colour from panel to panel.
fn colour(name: &str) -> &'static str {
    match name {
        "ours" => "#c0392b",
        "before" => "#e6b0aa",
        "plain Rust" => "#2c3e50",
        "BTreeMap" => "#d68910",
        "std::map" => "#1e8449",
        "avl_set" => "#2471a3",
        "GTree" => "#7d3c98",
        "rescan" => "#6e2c00",
        "rescan, one look" => "#e84393",
        _ => "#95a5a6",
    }
}

/// The powers of ten around all points of a panel.
fn decades(panel: &Panel) -> (i32, i32) {
    let all = || panel.lines.iter().flat_map(|line| &line.points).map(|&(_, seconds)| seconds.log10());
    let (low, high) = (all().fold(f64::MAX, f64::min), all().fold(f64::MIN, f64::max));
    (low.floor() as i32, (high.ceil() as i32).max(low.floor() as i32 + 1))
}

fn draw(svg: &mut String, panel: &Panel, x0: f64, y0: f64) {
    let (low, high) = decades(panel);
    let (width, height) = (WIDE - LEFT - 20.0, HIGH - TOP - 40.0);
    let (first, last) = (15f64.log2(), 4_095f64.log2());
    let x = |records: usize| x0 + LEFT + width * ((records as f64).log2() - first) / (last - first);
    let y = |seconds: f64| y0 + TOP + height * (1.0 - (seconds.log10() - f64::from(low)) / f64::from(high - low));
    let (left, right, base) = (x0 + LEFT, x0 + LEFT + width, y0 + TOP + height);
    let _ = writeln!(svg, "<text x='{left:.0}' y='{:.0}' font-weight='bold'>{}</text>", y0 + 20.0, panel.title);
    for power in low..=high {
        let at = y(10f64.powi(power));
        let _ = writeln!(svg, "<path d='M{left:.1} {at:.1}H{right:.1}' stroke='#ddd'/>");
        let label = time(10f64.powi(power) * 1.000_001).replace(".00", "").replace(".0", "");
        let _ = writeln!(svg, "<text x='{:.1}' y='{:.1}' text-anchor='end'>{label}</text>", left - 6.0, at + 4.0);
    }
    for records in [15, 63, 255, 1_023, 4_095] {
        let at = x(records);
        let _ = writeln!(svg, "<path d='M{at:.1} {base:.1}v4' stroke='#888'/>");
        let _ = writeln!(svg, "<text x='{at:.1}' y='{:.1}' text-anchor='middle'>{records}</text>", base + 17.0);
    }
    for line in &panel.lines {
        let thick = if line.name == "ours" { 2.6 } else { 1.4 };
        let places: Vec<String> = line.points.iter().map(|&(n, s)| format!("{:.1},{:.1}", x(n), y(s))).collect();
        let _ = writeln!(
            svg,
            "<polyline points='{}' fill='none' stroke='{}' stroke-width='{thick}'/>",
            places.join(" "),
            colour(line.name)
        );
    }
}

/// The whole picture: two panels in a row, and the names with their colours below.
pub fn plot(panels: &[Panel]) -> String {
    let rows = panels.len().div_ceil(2);
    let (width, height) = (2.0 * WIDE, rows as f64 * HIGH + LEGEND);
    let mut svg = format!(
        "<svg xmlns='http://www.w3.org/2000/svg' viewBox='0 0 {width} {height}' \
         font-family='sans-serif' font-size='12'>\n\
         <rect width='{width}' height='{height}' fill='white'/>\n"
    );
    for (i, panel) in panels.iter().enumerate() {
        draw(&mut svg, panel, (i % 2) as f64 * WIDE, (i / 2) as f64 * HIGH);
    }
    let mut names: Vec<&str> = Vec::new();
    for line in panels.iter().flat_map(|panel| &panel.lines) {
        if !names.contains(&line.name) {
            names.push(line.name);
        }
    }
    for (i, name) in names.iter().enumerate() {
        let (x, y) = (30.0 + (i % 5) as f64 * 150.0, rows as f64 * HIGH + 20.0 + (i / 5) as f64 * 20.0);
        let _ = writeln!(svg, "<path d='M{x} {:.0}h24' stroke='{}' stroke-width='3'/>", y - 4.0, colour(name));
        let _ = writeln!(svg, "<text x='{}' y='{y}'>{name}</text>", x + 30.0);
    }
    svg + "</svg>\n"
}
