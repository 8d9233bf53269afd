//! The balanced trees of others: Rust's BTreeMap here, and the declarations of those in bench/peers.

use crate::words::{refuse, Answer, KEY_ABSENT, KEY_PRESENT};
use std::collections::btree_map::{BTreeMap, Entry};
use std::ffi::c_void;

#[derive(Default)]
struct Store {
    records: BTreeMap<u32, (u32, u32)>,
    change: u32,
}

pub unsafe extern "C" fn btree_open(_slots: usize) -> *mut c_void {
    Box::into_raw(Box::<Store>::default()).cast()
}

pub unsafe extern "C" fn btree_close(t: *mut c_void) {
    drop(Box::from_raw(t.cast::<Store>()));
}

#[inline(never)]
pub unsafe extern "C" fn btree_find(t: *const c_void, _n: usize, key: u32, out: *mut u64) {
    let store = &*t.cast::<Store>();
    *out.cast::<Answer>() = match store.records.get(&key) {
        None => refuse(KEY_ABSENT),
        Some(&(pieces, state)) => [0, store.change.into(), pieces.into(), 0, state.into()],
    };
}

#[inline(never)]
pub unsafe extern "C" fn btree_post(t: *mut c_void, _n: usize, key: u32, pieces: u32, state: u32, out: *mut u64) {
    let store = &mut *t.cast::<Store>();
    *out.cast::<Answer>() = match store.records.entry(key) {
        Entry::Occupied(_) => refuse(KEY_PRESENT),
        Entry::Vacant(place) => {
            place.insert((pieces, state));
            store.change += 1;
            [0, store.change.into(), 0, 0, 0]
        }
    };
}

#[inline(never)]
pub unsafe extern "C" fn btree_drop(t: *mut c_void, _n: usize, key: u32, out: *mut u64) {
    let store = &mut *t.cast::<Store>();
    *out.cast::<Answer>() = match store.records.remove(&key) {
        None => refuse(KEY_ABSENT),
        Some(_) => {
            store.change += 1;
            [0, store.change.into(), 0, 0, 0]
        }
    };
}

/// Declares a peer's five functions.
macro_rules! peer {
    ($peer:ident: $open:ident $close:ident $find:ident $post:ident $drop:ident) => {
        #[cfg($peer)]
        extern "C" {
            pub fn $open(slots: usize) -> *mut c_void;
            pub fn $close(t: *mut c_void);
            pub fn $find(t: *const c_void, n: usize, key: u32, out: *mut u64);
            pub fn $post(t: *mut c_void, n: usize, key: u32, pieces: u32, state: u32, out: *mut u64);
            pub fn $drop(t: *mut c_void, n: usize, key: u32, out: *mut u64);
        }
    };
}

peer!(std_map: std_map_open std_map_close std_map_find std_map_post std_map_drop);
peer!(avl_set: avl_set_open avl_set_close avl_set_find avl_set_post avl_set_drop);
peer!(gtree: gtree_open gtree_close gtree_find gtree_post gtree_drop);
