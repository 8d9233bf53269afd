//! The eleven calls as data: each can be run by the proved library and by the second writing of document 01 and order 1 of document 02.

use crate::records::Answer;
use crate::{firing, library, records, sums};

/// The names of the calls, in the order of the C interface.
pub const NAMES: [&str; 11] =
    ["start", "check", "find", "post", "amend", "drop", "rank", "total", "worth", "fire", "tidy"];

/// How many arguments each call takes.
pub const ARITY: [usize; 11] = [0, 0, 1, 3, 3, 1, 1, 1, 0, 3, 1];

/// The codes that each call can answer with.
pub const CODES: [&[u64]; 11] = [
    &[0, 1],
    &[0, 1, 3],
    &[0, 1, 2, 3, 5],
    &[0, 1, 2, 3, 4, 6, 7],
    &[0, 1, 2, 3, 5, 7],
    &[0, 1, 2, 3, 5, 7],
    &[0, 1, 2, 3, 5],
    &[0, 1, 3],
    &[0, 1, 3],
    &[0, 1, 2, 3, 8, 9],
    &[0, 1, 3],
];

/// A call by its number in `NAMES`; arguments beyond its own are 0.
#[derive(Clone, Copy, PartialEq)]
pub struct Call {
    pub name: usize,
    pub args: [u32; 3],
}

impl Call {
    pub fn new(name: &str, args: &[u32]) -> Call {
        let mut call = Call { name: NAMES.iter().position(|n| *n == name).expect("a call's name"), args: [0; 3] };
        call.args[..args.len()].copy_from_slice(args);
        call
    }

    /// The library's answer. The five numbers start as rubbish, so one that is not written shows.
    pub fn by_library(&self, words: &mut [u32]) -> Answer {
        let [a, b, c] = self.args;
        let mut out = [0xDEAD_BEEF_DEAD_BEEFu64; 5];
        let (t, n, o) = (words.as_mut_ptr(), words.len(), out.as_mut_ptr());
        // Sound: t and n are one live slice, o has room for five numbers.
        unsafe {
            match self.name {
                0 => library::ftk_start(t, n, o),
                1 => library::ftk_check(t, n, o),
                2 => library::ftk_find(t, n, a, o),
                3 => library::ftk_post(t, n, a, b, c, o),
                4 => library::ftk_amend(t, n, a, b, c, o),
                5 => library::ftk_drop(t, n, a, o),
                6 => library::ftk_rank(t, n, a, o),
                7 => library::ftk_total(t, n, a, o),
                8 => library::ftk_worth(t, n, o),
                9 => library::ftk_fire(t, n, a, b, c, o),
                _ => library::ftk_tidy(t, n, a, o),
            }
        }
        out
    }

    /// The answer of the second writing.
    pub fn by_paper(&self, words: &mut [u32]) -> Answer {
        let [a, b, c] = self.args;
        match self.name {
            0 => records::start(words),
            1 => records::check(words),
            2 => records::find(words, a),
            3 => records::post(words, a, b, c),
            4 => records::amend(words, a, b, c),
            5 => records::drop(words, a),
            6 => sums::rank(words, a),
            7 => sums::total(words, a),
            8 => sums::worth(words),
            9 => firing::fire(words, a, b, c),
            _ => firing::tidy(words, a),
        }
    }

    /// The call as words: its name and its own arguments.
    pub fn shown(&self) -> String {
        let args = self.args[..ARITY[self.name]].iter().map(|arg| format!(" {arg}"));
        NAMES[self.name].to_string() + &args.collect::<String>()
    }

    /// Reads what `shown` gives.
    pub fn read(text: &str) -> Option<Call> {
        let mut parts = text.split_whitespace();
        let name = parts.next()?;
        let args: Vec<u32> = parts.map(|part| part.parse().ok()).collect::<Option<_>>()?;
        let number = NAMES.iter().position(|n| *n == name)?;
        (args.len() == ARITY[number]).then(|| Call::new(name, &args))
    }
}
