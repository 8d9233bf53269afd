//! The program `stand` as document 01 states it: the bytes that it prints for the bytes that it reads.

use crate::call::Call;
use crate::paper::*;
use crate::records::{check, refuse, Answer};

const SLOTS: usize = 15;
const MOST_BYTES: usize = 65_536;
const MOST_LINE: usize = 80;

/// The lines that can be read: the words of `op=` and the fields that follow.
pub const FORMS: [(&str, &[&str]); 10] = [
    ("post", &["key", "pieces", "state"]),
    ("amend", &["key", "pieces", "state"]),
    ("drop", &["key"]),
    ("find", &["key"]),
    ("rank", &["r"]),
    ("total", &["key"]),
    ("worth", &[]),
    ("fire", &["rule", "holder", "side"]),
    ("tidy", &["budget"]),
    ("list", &[]),
];

/// A decimal number within 32 bits, without sign or leading zero.
fn number(text: &str) -> Option<u32> {
    let digits = !text.is_empty() && text.bytes().all(|byte| byte.is_ascii_digit());
    if !digits || (text.len() > 1 && text.starts_with('0')) {
        return None;
    }
    text.parse().ok()
}

/// A line's word and numbers.
fn read(line: &[u8]) -> Option<(&'static str, Vec<u32>)> {
    if line.is_empty() || line.len() > MOST_LINE {
        return None;
    }
    let mut parts = std::str::from_utf8(line).ok()?.split(' ');
    let word = parts.next()?.strip_prefix("op=")?;
    let (word, fields) = FORMS.into_iter().find(|form| form.0 == word)?;
    let mut numbers = Vec::new();
    for field in fields {
        numbers.push(number(parts.next()?.strip_prefix(field)?.strip_prefix('=')?)?);
    }
    parts.next().is_none().then_some((word, numbers))
}

fn print(out: &mut String, [code, change, value, more, kind]: Answer) {
    *out += &format!("code={code} change={change} value={value} more={more} kind={kind}\n");
}

fn list(out: &mut String, words: &[u32]) {
    let mut answer = check(words);
    if answer[0] != 0 {
        return print(out, answer);
    }
    (answer[2], answer[3]) = (u64::from(words[RECORDS]), u64::from(words[ROOT]));
    print(out, answer);
    for k in in_order(words) {
        let field = |f| get(words, k, f);
        *out += &format!("key={} pieces={} state={} slot={k} ", field(KEY), field(PIECES), field(STATE));
        *out += &format!("left={} right={} ", field(LINK[0]), field(LINK[1]));
        *out += &format!("lefth={} righth={}\n", field(HEIGHT[0]), field(HEIGHT[1]));
    }
}

/// Everything that the program prints.
pub fn stand(input: &[u8]) -> String {
    let mut out = String::new();
    if input.len() > MOST_BYTES {
        print(&mut out, refuse(UNREADABLE));
        return out;
    }
    let mut words = vec![0; length_of(SLOTS)];
    let mut lines: Vec<&[u8]> = input.split(|&byte| byte == b'\n').collect();
    if lines.last().is_some_and(|rest| rest.is_empty()) {
        lines.pop();
    }
    for line in lines {
        match read(line) {
            None => print(&mut out, refuse(UNREADABLE)),
            Some(("list", _)) => list(&mut out, &words),
            Some((word, numbers)) => print(&mut out, Call::new(word, &numbers).by_paper(&mut words)),
        }
    }
    out
}
