//! The declarations of `bindings/c/include/pbcube.h`.

use std::ffi::{c_char, c_int};

#[repr(C)]
pub struct Raw {
    private: [u8; 0],
}

extern "C" {
    pub fn pbcube_new() -> *mut Raw;
    pub fn pbcube_free(solver: *mut Raw);
    pub fn pbcube_term(solver: *mut Raw, coefficient: i64, literal: i32) -> c_int;
    pub fn pbcube_end(solver: *mut Raw, relation: c_int, bound: i64) -> c_int;
    pub fn pbcube_end_objective(solver: *mut Raw) -> c_int;
    pub fn pbcube_clause(solver: *mut Raw, literals: *const i32, count: usize) -> c_int;
    pub fn pbcube_discard(solver: *mut Raw) -> c_int;
    pub fn pbcube_variables(solver: *mut Raw) -> u32;
    pub fn pbcube_solve(solver: *mut Raw, decisions: u64) -> c_int;
    pub fn pbcube_solve_under(solver: *mut Raw, literals: *const i32, count: usize, decisions: u64) -> c_int;
    pub fn pbcube_suggest(solver: *mut Raw, values: *const u8, count: usize) -> c_int;
    pub fn pbcube_explain(
        solver: *mut Raw,
        literals: *const i32,
        count: usize,
        decisions: u64,
        core: *mut i32,
        core_count: *mut usize,
    ) -> c_int;
    pub fn pbcube_fixed(
        solver: *mut Raw,
        literals: *const i32,
        count: usize,
        among: c_int,
        decisions: u64,
        statuses: *mut u8,
        size: usize,
    ) -> c_int;
    pub fn pbcube_cost_text(solver: *mut Raw, text: *mut c_char, size: usize) -> usize;
    pub fn pbcube_value(solver: *mut Raw, variable: u32) -> c_int;
    pub fn pbcube_run(solver: *mut Raw, format: c_int, text: *const c_char, length: usize, decisions: u64) -> c_int;
    pub fn pbcube_report(solver: *mut Raw, text: *mut c_char, size: usize) -> usize;
    pub fn pbcube_hint(format: c_int, text: *const c_char, length: usize, hint: *mut c_char, size: usize) -> usize;
}
