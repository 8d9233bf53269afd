//! One table in two copies: each call is run on both, and the answers and every word are compared.

use crate::call::Call;
use crate::records::Answer;

/// Words before and after the lent part that no call may touch.
const MARGIN: usize = 8;
const MARGIN_WORD: u32 = 0xA5A5_5A5A;

/// A call that the two sides do not agree on, with the words it was made on.
pub struct Difference {
    pub before: Vec<u32>,
    pub call: Call,
    pub library: (Answer, Vec<u32>),
    pub paper: (Answer, Vec<u32>),
    pub stray: bool,
}

pub struct Bench {
    before: Vec<u32>,
    lent: Vec<u32>,
    paper: Vec<u32>,
}

impl Bench {
    pub fn new(words: &[u32]) -> Bench {
        let mut lent = vec![MARGIN_WORD; words.len() + 2 * MARGIN];
        lent[MARGIN..MARGIN + words.len()].copy_from_slice(words);
        Bench { before: words.to_vec(), lent, paper: words.to_vec() }
    }

    /// The words as they stand.
    pub fn words(&self) -> &[u32] {
        &self.paper
    }

    /// Runs a call on both copies; the difference if there is one.
    pub fn run(&mut self, call: Call) -> Result<Answer, Box<Difference>> {
        let count = self.paper.len();
        self.before.copy_from_slice(&self.paper);
        let library = call.by_library(&mut self.lent[MARGIN..MARGIN + count]);
        let paper = call.by_paper(&mut self.paper);
        let stray = [&self.lent[..MARGIN], &self.lent[MARGIN + count..]].concat() != [MARGIN_WORD; 2 * MARGIN];
        let lent = &self.lent[MARGIN..MARGIN + count];
        if library == paper && lent == self.paper && !stray {
            return Ok(paper);
        }
        Err(Box::new(Difference {
            before: self.before.clone(),
            call,
            library: (library, lent.to_vec()),
            paper: (paper, self.paper.clone()),
            stray,
        }))
    }
}

/// The difference that a call makes on these words, if it makes one.
pub fn difference(words: &[u32], call: Call) -> Option<Difference> {
    Bench::new(words).run(call).err().map(|difference| *difference)
}
