//! An earlier library beside ours in the same run: the shared object that the variable BEFORE names, if there is one.
//! The variable SAME_WAY then names a shared object of ours, made in the same way.

use std::ffi::{c_char, c_int, c_void, CString};
use std::mem::transmute_copy;
use std::sync::OnceLock;

pub const BEFORE: &str = "before";

type Asks = unsafe extern "C" fn(*const u32, usize, *mut u64);
pub type AsksWith = unsafe extern "C" fn(*const u32, usize, u32, *mut u64);
type WritesWith = unsafe extern "C" fn(*mut u32, usize, u32, *mut u64);
type WritesRecord = unsafe extern "C" fn(*mut u32, usize, u32, u32, u32, *mut u64);

/// The calls that are measured.
#[derive(Clone, Copy)]
pub struct Before {
    pub find: AsksWith,
    pub post: WritesRecord,
    pub drop: WritesWith,
    pub check: Asks,
    pub rank: AsksWith,
    pub total: AsksWith,
    pub worth: Asks,
    pub tidy: WritesWith,
}

extern "C" {
    fn dlopen(file: *const c_char, how: c_int) -> *mut c_void;
    fn dlsym(library: *mut c_void, name: *const c_char) -> *mut c_void;
}

const NOW: c_int = 2;

/// The address of a call as the function that it is.
unsafe fn call<F>(library: *mut c_void, name: &str) -> F {
    let at = dlsym(library, CString::new(name).unwrap().as_ptr());
    assert!(!at.is_null(), "the earlier library has no {name}");
    transmute_copy(&at)
}

fn load(file: &str) -> Before {
    unsafe {
        let library = dlopen(CString::new(file).unwrap().as_ptr(), NOW);
        assert!(!library.is_null(), "{file} cannot be loaded");
        Before {
            find: call(library, "ftk_find"),
            post: call(library, "ftk_post"),
            drop: call(library, "ftk_drop"),
            check: call(library, "ftk_check"),
            rank: call(library, "ftk_rank"),
            total: call(library, "ftk_total"),
            worth: call(library, "ftk_worth"),
            tidy: call(library, "ftk_tidy"),
        }
    }
}

/// The earlier library, loaded once.
pub fn before() -> Option<Before> {
    static LOADED: OnceLock<Option<Before>> = OnceLock::new();
    *LOADED.get_or_init(|| told("BEFORE"))
}

/// The find of ours and of the earlier library, both loaded in the same way: neither gains by how it is linked.
pub fn find_now_and_before() -> Option<(AsksWith, AsksWith)> {
    static LOADED: OnceLock<Option<Before>> = OnceLock::new();
    let now = (*LOADED.get_or_init(|| told("SAME_WAY")))?;
    Some((now.find, before()?.find))
}

/// The library that a variable names, if it names one.
fn told(variable: &str) -> Option<Before> {
    std::env::var(variable).ok().filter(|file| !file.is_empty()).map(|file| load(&file))
}
