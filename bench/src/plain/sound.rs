//! The soundness check in plain Rust: one recursive scan with mark bits, then the slots that it did not reach.

use crate::words::*;

/// One mark bit for each slot, packed in 64-bit words.
struct Scan<'a> {
    slots: &'a [Slot],
    marks: [u64; 64],
    missing: usize,
}

impl Scan<'_> {
    /// Scans what hangs at a link, with keys strictly between two bounds; false at damage.
    fn scan(&mut self, k: u32, above: i64, below: i64) -> bool {
        let mut k = k as usize;
        let mut above = above;
        while k != 0 {
            let (word, bit) = (k / 64, 1 << (k % 64));
            let s = &self.slots[k - 1];
            let key = i64::from(s[KEY]);
            let again = self.marks[word] & bit != 0;
            if again || self.missing == 0 || key <= above || key >= below || !fit(s, self.slots.len()) {
                return false;
            }
            self.marks[word] |= bit;
            self.missing -= 1;
            if s[LEFT] != 0 && !self.scan(s[LEFT], above, key) {
                return false;
            }
            (k, above) = (s[RIGHT] as usize, key);
        }
        true
    }

    /// Every slot that was not reached is eight zeros: the marks are looked at 64 at a time.
    fn rest_blank(&self) -> bool {
        let words = self.slots.len() / 64 + 1;
        self.marks[..words].iter().enumerate().all(|(word, marks)| {
            let mut missed = !marks;
            while missed != 0 {
                let k = 64 * word + missed.trailing_zeros() as usize;
                match self.slots.get(k - 1) {
                    None => return true,
                    Some(s) if !blank(s) => return false,
                    Some(_) => missed &= missed - 1,
                }
            }
            true
        })
    }
}

/// The table is sound.
pub fn sound(header: &Header, slots: &[Slot]) -> bool {
    if !header_good(header, slots.len()) {
        return false;
    }
    let mut scan = Scan { slots, marks: [0; 64], missing: header[RECORDS] as usize };
    // No slot has the number 0: its mark counts as set.
    scan.marks[0] = 1;
    scan.scan(header[ROOT], -1, i64::MAX) && scan.missing == 0 && scan.rest_blank()
}

pub fn check(words: &[u32]) -> Answer {
    match parts(words) {
        None => refuse(WRONG_LENGTH),
        Some((header, slots)) if !sound(header, slots) => refuse(DAMAGED),
        Some((header, _)) => accept(header, 0, 0, 0),
    }
}
