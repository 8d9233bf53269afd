//! The limit for find: a walk on the same words that tests nothing, as anybody would write it, and in three forms that
//! tell the compiler how to choose the side.

use crate::words::*;
use std::hint::{black_box, select_unpredictable};

/// The word of a slot, with no test of the place.
#[inline]
unsafe fn word(t: *const u32, k: usize, field: usize) -> u32 {
    *t.add(length(k - 1) + field)
}

/// Writes the answer of a hit as find gives it; a miss names no neighbours.
#[inline]
unsafe fn answer(t: *const u32, k: usize, visits: u64, out: *mut u64) {
    let out = &mut *out.cast::<Answer>();
    if k == 0 {
        *out = refuse(KEY_ABSENT);
    } else {
        *out = [0, (*t.add(CHANGE)).into(), word(t, k, PIECES).into(), visits, word(t, k, STATE).into()];
    }
}

/// The walk, with the son on one of two sides picked in a given way.
macro_rules! bare {
    ($name:ident, $son:expr) => {
        #[inline(never)]
        pub unsafe extern "C" fn $name(t: *const u32, _n: usize, key: u32, out: *mut u64) {
            let (mut k, mut visits) = (*t as usize, 0);
            while k != 0 {
                visits += 1;
                let here = word(t, k, KEY);
                if here == key {
                    break;
                }
                k = $son(t, k, key < here) as usize;
            }
            answer(t, k, visits, out)
        }
    };
}

// The son as anybody would write it: rustc reads it at a place that it computes from the comparison (setcc).
bare!(bare_plain, |t, k, left| if left { word(t, k, LEFT) } else { word(t, k, RIGHT) });

// The place of one of the two links taken by a conditional move (cmov), and the link read there.
bare!(bare_move, |t, k, left| select_unpredictable(left, word(t, k, LEFT), word(t, k, RIGHT)));

// Both links read beside the key, and one taken by a conditional move: the compiler must not leave out a volatile read,
// and so does not make of it the form above.
bare!(bare_both, |t: *const u32, k: usize, left| {
    let slot = t.add(length(k - 1));
    select_unpredictable(left, slot.add(LEFT).read_volatile(), slot.add(RIGHT).read_volatile())
});

// A jump on the comparison: an empty black box in one arm keeps the compiler from making a move of it.
bare!(bare_jump, |t, k, left| {
    if left {
        black_box(());
        word(t, k, LEFT)
    } else {
        word(t, k, RIGHT)
    }
});
