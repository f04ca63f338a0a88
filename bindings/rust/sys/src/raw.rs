//! The exported functions, as `include/dolzhev.h` and `include/dolzhev_zorder.h` declare them.
use crate::hours::BlockHours;
use crate::types::{AddressAnswer, AddressWords, Answer, Costs, CostsAnswer, Move, RegionAnswer, Row};

/// C passes an array by value in a struct only.
#[repr(C)]
#[derive(Clone, Copy)]
pub struct ByValue {
    pub costs: Costs,
}

#[rustfmt::skip]
extern "C" {
    pub fn dolzhev_load(memory: *mut u8, memory_len: usize, c: usize, d: usize, rows: *const Move, rows_len: usize) -> Answer;
    pub fn dolzhev_enter(memory: *mut u8, memory_len: usize, x: Move, rows: *mut Row, rows_len: usize) -> Answer;
    pub fn dolzhev_withdraw(memory: *mut u8, memory_len: usize, number: u16, rows: *mut Row, rows_len: usize) -> Answer;
    pub fn dolzhev_recost(memory: *mut u8, memory_len: usize, x: Move, rows: *mut Row, rows_len: usize) -> Answer;
    pub fn dolzhev_preview_enter(memory: *const u8, memory_len: usize, x: Move, rows: *mut Row, rows_len: usize) -> Answer;
    pub fn dolzhev_preview_withdraw(memory: *const u8, memory_len: usize, number: u16, rows: *mut Row, rows_len: usize) -> Answer;
    pub fn dolzhev_preview_recost(memory: *const u8, memory_len: usize, x: Move, rows: *mut Row, rows_len: usize) -> Answer;
    pub fn dolzhev_list(memory: *const u8, memory_len: usize, rows: *mut Row, rows_len: usize) -> Answer;
    pub fn dolzhev_band(memory: *const u8, memory_len: usize, b: usize, rows: *mut Row, rows_len: usize) -> Answer;
    pub fn dolzhev_rank(memory: *const u8, memory_len: usize, t: usize, rows: *mut Row, rows_len: usize) -> Answer;
    pub fn dolzhev_on_k(memory: *const u8, memory_len: usize, k: usize, rows: *mut Row, rows_len: usize) -> Answer;
    pub fn dolzhev_chosen(memory: *const u8, memory_len: usize, set: usize, rows: *mut Row, rows_len: usize) -> Answer;
    pub fn dolzhev_hours(memory: *const u8, memory_len: usize, minute: usize, hours: *const BlockHours, hours_len: usize,
                         rows: *mut Row, rows_len: usize) -> Answer;
    pub fn dolzhev_address(d: usize, costs: ByValue) -> AddressAnswer;
    pub fn dolzhev_costs_of(d: usize, address: AddressWords) -> CostsAnswer;
    pub fn dolzhev_region(d: usize, a: AddressWords, b: AddressWords) -> RegionAnswer;
}
