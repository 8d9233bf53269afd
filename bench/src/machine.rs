//! What kind of machine this is, and which peers are absent: never its name.

use crate::stores::{tree_peers, TREES};
use std::fs::read_to_string;

/// What bench/run says under a name.
pub fn told(name: &str) -> String {
    std::env::var(name).unwrap_or_else(|_| "not told".to_string())
}

/// The value of a line such as `model name : ...` or `PRETTY_NAME="..."`.
fn value(text: &str, name: &str, between: char) -> String {
    let line = text.lines().find(|line| line.split(between).next().is_some_and(|left| left.trim() == name));
    let right = line.and_then(|line| line.split_once(between)).map_or("unknown", |(_, right)| right);
    right.trim().trim_matches('"').replace("(R)", "").replace("(TM)", "")
}

pub fn machine() -> String {
    let processor = read_to_string("/proc/cpuinfo").unwrap_or_default();
    let system = read_to_string("/etc/os-release").unwrap_or_default();
    let cores = std::thread::available_parallelism().map_or(0, |n| n.get());
    let kind = if processor.contains("hypervisor") { "virtual cores" } else { "cores" };
    let field = |name| value(&processor, name, ':');
    format!(
        "{cores} {kind} of an {} (family {}, model {}), {}",
        field("model name"),
        field("cpu family"),
        field("model"),
        value(&system, "PRETTY_NAME", '=')
    )
}

/// How many processes wanted to run in the last minute.
pub fn load() -> String {
    let text = read_to_string("/proc/loadavg").unwrap_or_default();
    text.split(' ').next().filter(|load| !load.is_empty()).unwrap_or("unknown").to_string()
}

/// A sentence on the trees that this build does not have.
pub fn absent() -> String {
    let here = tree_peers();
    let gone: Vec<&str> = TREES.into_iter().filter(|name| here.iter().all(|calls| calls.name != *name)).collect();
    match gone[..] {
        [] => "All peers were there.".to_string(),
        _ => format!("Left out, because it could not be installed here: {}.", gone.join(", ")),
    }
}
