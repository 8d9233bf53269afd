//! A contestant's store of records, whatever it is made of: all are called through pointers of the same shape.

use crate::before::{before, find_now_and_before, BEFORE};
use crate::words::{length, Answer};
use crate::{bare, ours, plain, trees};
use std::ffi::c_void;
use std::mem::transmute;

pub type Find = unsafe extern "C" fn(*const c_void, usize, u32, *mut u64);
pub type Post = unsafe extern "C" fn(*mut c_void, usize, u32, u32, u32, *mut u64);
pub type Drop = unsafe extern "C" fn(*mut c_void, usize, u32, *mut u64);

/// What a contestant can do. One that brings no open works on lent words.
#[derive(Clone, Copy)]
pub struct Calls {
    pub name: &'static str,
    open: Option<unsafe extern "C" fn(usize) -> *mut c_void>,
    close: Option<unsafe extern "C" fn(*mut c_void)>,
    pub find: Find,
    pub post: Option<Post>,
    pub drop: Option<Drop>,
}

pub const OURS: &str = "ours";
pub const PLAIN: &str = "plain Rust";
pub const BARE: [&str; 4] = ["bare walk", "bare walk (cmov)", "bare walk (both links)", "bare walk (jump)"];
pub const TREES: [&str; 4] = ["BTreeMap", "std::map", "avl_set", "GTree"];

type WordsFind = unsafe extern "C" fn(*const u32, usize, u32, *mut u64);
type WordsPost = unsafe extern "C" fn(*mut u32, usize, u32, u32, u32, *mut u64);
type WordsDrop = unsafe extern "C" fn(*mut u32, usize, u32, *mut u64);

/// A contestant on lent words. Pointers to words and pointers to anything are passed alike.
fn on_words(name: &'static str, find: WordsFind, writes: Option<(WordsPost, WordsDrop)>) -> Calls {
    unsafe {
        Calls {
            name,
            open: None,
            close: None,
            find: transmute::<WordsFind, Find>(find),
            post: writes.map(|(post, _)| transmute::<WordsPost, Post>(post)),
            drop: writes.map(|(_, drop)| transmute::<WordsDrop, Drop>(drop)),
        }
    }
}

macro_rules! tree {
    ($name:expr, $open:path, $close:path, $find:path, $post:path, $drop:path) => {
        Calls { name: $name, open: Some($open), close: Some($close), find: $find, post: Some($post), drop: Some($drop) }
    };
}

/// The trees that this build has.
pub fn tree_peers() -> Vec<Calls> {
    use trees::*;
    vec![
        tree!(TREES[0], btree_open, btree_close, btree_find, btree_post, btree_drop),
        #[cfg(std_map)]
        tree!(TREES[1], std_map_open, std_map_close, std_map_find, std_map_post, std_map_drop),
        #[cfg(avl_set)]
        tree!(TREES[2], avl_set_open, avl_set_close, avl_set_find, avl_set_post, avl_set_drop),
        #[cfg(gtree)]
        tree!(TREES[3], gtree_open, gtree_close, gtree_find, gtree_post, gtree_drop),
    ]
}

/// Those that keep the same promises: ours and plain Rust, and an earlier library if one was given.
pub fn promised() -> Vec<Calls> {
    let mut all = vec![
        on_words(OURS, ours::ftk_find, Some((ours::ftk_post, ours::ftk_drop))),
        on_words(PLAIN, plain::plain_find, Some((plain::plain_post, plain::plain_drop))),
    ];
    all.extend(before().map(|b| on_words(BEFORE, b.find, Some((b.post, b.drop)))));
    all
}

/// Ours and the earlier library, for finds only, both loaded in the same way.
pub fn now_and_before() -> Option<(Calls, Calls)> {
    let (now, before) = find_now_and_before()?;
    Some((on_words(OURS, now, None), on_words(BEFORE, before, None)))
}

/// The walks that test nothing.
pub fn bare() -> Vec<Calls> {
    let walks: [WordsFind; 4] = [bare::bare_plain, bare::bare_move, bare::bare_both, bare::bare_jump];
    BARE.into_iter().zip(walks).map(|(name, find)| on_words(name, find, None)).collect()
}

pub struct Store {
    pub calls: Calls,
    at: *mut c_void,
    len: usize,
    pub words: Vec<u32>,
}

impl Store {
    /// An empty store with room for so many records.
    pub fn new(calls: Calls, slots: usize) -> Store {
        let len = length(slots);
        let mut words = vec![0; if calls.open.is_none() { len } else { 0 }];
        let at = match calls.open {
            Some(open) => unsafe { open(slots) },
            None => words.as_mut_ptr().cast(),
        };
        Store { calls, at, len, words }
    }

    /// A store on these words.
    pub fn of_words(calls: Calls, words: &[u32]) -> Store {
        let mut store = Store { calls, at: std::ptr::null_mut(), len: words.len(), words: words.to_vec() };
        store.at = store.words.as_mut_ptr().cast();
        store
    }

    /// Where the store is and its length, for the calls.
    pub fn place(&self) -> (*mut c_void, usize) {
        (self.at, self.len)
    }

    pub fn find(&self, key: u32) -> Answer {
        let mut out = [u64::MAX; 5];
        unsafe { (self.calls.find)(self.at, self.len, key, out.as_mut_ptr()) };
        out
    }

    pub fn post(&mut self, key: u32, pieces: u32, state: u32) -> Answer {
        let mut out = [u64::MAX; 5];
        let post = self.calls.post.expect("a contestant that posts");
        unsafe { post(self.at, self.len, key, pieces, state, out.as_mut_ptr()) };
        out
    }

    pub fn drop_record(&mut self, key: u32) -> Answer {
        let mut out = [u64::MAX; 5];
        let drop = self.calls.drop.expect("a contestant that drops");
        unsafe { drop(self.at, self.len, key, out.as_mut_ptr()) };
        out
    }
}

impl std::ops::Drop for Store {
    fn drop(&mut self) {
        if let Some(close) = self.calls.close {
            unsafe { close(self.at) };
        }
    }
}
