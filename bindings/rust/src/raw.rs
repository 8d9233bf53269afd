//! The library's calls as C sees them, declared once for the wrapper, tests/compare and bench. A test of the wrapper
//! holds this list to bindings/c/futtockram.h.

extern "C" {
    pub fn ftk_start(t: *mut u32, n: usize, out: *mut u64);
    pub fn ftk_check(t: *const u32, n: usize, out: *mut u64);
    pub fn ftk_find(t: *const u32, n: usize, key: u32, out: *mut u64);
    pub fn ftk_post(t: *mut u32, n: usize, key: u32, pieces: u32, state: u32, out: *mut u64);
    pub fn ftk_amend(t: *mut u32, n: usize, key: u32, pieces: u32, state: u32, out: *mut u64);
    pub fn ftk_drop(t: *mut u32, n: usize, key: u32, out: *mut u64);
    pub fn ftk_rank(t: *const u32, n: usize, r: u32, out: *mut u64);
    pub fn ftk_total(t: *const u32, n: usize, key: u32, out: *mut u64);
    pub fn ftk_worth(t: *const u32, n: usize, out: *mut u64);
    pub fn ftk_fire(t: *mut u32, n: usize, rule: u32, holder: u32, side: u32, out: *mut u64);
    pub fn ftk_tidy(t: *mut u32, n: usize, budget: u32, out: *mut u64);
}
