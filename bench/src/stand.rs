//! The program `stand` on a full input of find lines: its loop over and over in one process, and as a process.

use crate::clock::{contest, timed, Turn};
use crate::dice::Dice;
use crate::finds::Wanted;
use std::fs::{write, File};
use std::path::{Path, PathBuf};
use std::process::{Command, Output, Stdio};
use std::time::Duration;

/// The longest input that is answered, and the records that stand has slots for.
const MOST_BYTES: usize = 65_536;
const SLOTS: usize = 15;

/// What was measured with one input.
pub struct Stood {
    pub wanted: &'static str,
    pub finds: usize,
    /// Seconds for the whole input, called in one process; none if that could not be done here.
    pub inside: Option<f64>,
    /// Seconds of a process with this input, and of one with no input.
    pub process: f64,
    pub empty: f64,
}

impl Stood {
    pub fn lines_inside(&self) -> Option<f64> {
        self.inside.map(|seconds| self.finds as f64 / seconds)
    }

    pub fn lines_as_process(&self) -> f64 {
        self.finds as f64 / (self.process - self.empty)
    }
}

/// Fifteen postings, a tidy, and find lines of the same length until the input is full to the last byte.
fn full_input(wanted: Wanted) -> (String, usize) {
    let mut dice = Dice::new(15);
    let mut keys: Vec<u32> = (50..500).map(|half| 2 * half).collect();
    dice.shuffle(&mut keys);
    keys.truncate(SLOTS);
    let mut text = String::new();
    for key in &keys {
        let (pieces, state) = (dice.between(1_000, 9_999), dice.between(1, 2));
        text += &format!("op=post key={key} pieces={pieces} state={state}\n");
    }
    text += "op=tidy budget=1000\n";
    let mut finds = 0;
    while text.len() < MOST_BYTES {
        let key = keys[dice.below(SLOTS)] + u32::from(wanted == Wanted::Misses);
        text += &format!("op=find key={key}\n");
        finds += 1;
    }
    assert_eq!(text.len(), MOST_BYTES);
    (text, finds)
}

/// One run of a program with its input from a file.
fn output(command: &mut Command, input: &Path) -> Output {
    let input = File::open(input).expect("the input that was just written");
    command.stdin(input).stderr(Stdio::piped()).output().expect("stand runs")
}

/// The best seconds of one call of stand's main in a process that makes many; what it prints has to be the same.
fn inside(stand: &Path, again: &Path, input: &Path, printed: &[u8]) -> Option<f64> {
    if !again.is_file() {
        return None;
    }
    let done = output(Command::new(stand).env("LD_PRELOAD", again).env("AGAIN", "600"), input);
    assert!(done.stdout == printed, "stand prints something else when it is run again");
    let nanoseconds: f64 = String::from_utf8_lossy(&done.stderr).trim().parse().ok()?;
    Some(nanoseconds / 1e9)
}

/// Measures stand on an input of hits or misses, in a folder for the inputs.
pub fn stand(wanted: Wanted, folder: &Path, share: Duration) -> Option<Stood> {
    let program = PathBuf::from(std::env::var_os("STAND")?);
    let again = PathBuf::from(std::env::var_os("AGAIN_LIBRARY").unwrap_or_default());
    let name = if wanted == Wanted::Hits { "hits" } else { "misses" };
    let (text, finds) = full_input(wanted);
    let (full, empty) = (folder.join(format!("{name}.txt")), folder.join("empty.txt"));
    write(&full, &text).and_then(|()| write(&empty, "")).expect("a folder that can be written");
    let printed = output(&mut Command::new(&program), &full).stdout;
    let answered = printed.split(|&byte| byte == b'\n').filter(|line| line.starts_with(b"code=")).count();
    assert_eq!(answered, finds + SLOTS + 1, "stand answers every line once");
    let turns = [("full", &full), ("empty", &empty)].map(|(name, input)| {
        let program = &program;
        let go = move |_| {
            let input = File::open(input).expect("the input that was just written");
            let mut run = Command::new(program);
            run.stdin(input).stdout(Stdio::null());
            timed(1, || run.status())
        };
        Turn { name, go: Box::new(go) }
    });
    let best = contest(turns.into(), share);
    let inside = inside(&program, &again, &full, &printed);
    Some(Stood { wanted: name, finds, inside, process: best[0].seconds, empty: best[1].seconds })
}
