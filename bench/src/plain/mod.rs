//! Plain Rust of the same promises, called in the same way as the proved library.

mod records;
mod rescan;
mod rules;
mod sound;
mod sums;
mod tidy;

use crate::words::Answer;
use std::slice::{from_raw_parts, from_raw_parts_mut};

/// Each of these takes n live words at t and room for five numbers at out, like the C interface.
macro_rules! read_call {
    ($name:ident, $call:path $(, $arg:ident)*) => {
        #[inline(never)]
        pub unsafe extern "C" fn $name(t: *const u32, n: usize $(, $arg: u32)*, out: *mut u64) {
            *out.cast::<Answer>() = $call(from_raw_parts(t, n) $(, $arg)*);
        }
    };
}

macro_rules! write_call {
    ($name:ident, $call:path $(, $arg:ident)*) => {
        #[inline(never)]
        pub unsafe extern "C" fn $name(t: *mut u32, n: usize $(, $arg: u32)*, out: *mut u64) {
            *out.cast::<Answer>() = $call(from_raw_parts_mut(t, n) $(, $arg)*);
        }
    };
}

read_call!(plain_check, sound::check);
read_call!(plain_find, records::find, key);
read_call!(plain_rank, sums::rank, r);
read_call!(plain_total, sums::total, key);
read_call!(plain_total_walking, sums::total_walking, key);
read_call!(plain_worth, sums::worth);
write_call!(plain_post, records::post, key, pieces, state);
write_call!(plain_drop, records::drop, key);
write_call!(plain_tidy, tidy::tidy, budget);
write_call!(plain_rescan, rescan::rescan, budget);
write_call!(plain_rescan_at_one_look, rescan::rescan_at_one_look, budget);
