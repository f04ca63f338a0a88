//! The board's calls as safe functions. A slice of Rust is what the calls ask of a pointer and a length: not null, aligned
//! and, where one of two is written, apart from the other.
use crate::hours::BlockHours;
use crate::raw;
use crate::types::{Answer, Move, Row};

/// Overwrites the memory with a board of size c and d costs that holds the rows.
pub fn load(memory: &mut [u8], c: usize, d: usize, rows: &[Move]) -> Answer {
    unsafe { raw::dolzhev_load(memory.as_mut_ptr(), memory.len(), c, d, rows.as_ptr(), rows.len()) }
}

/// Adds a move, in its block; tells the notice.
pub fn enter(memory: &mut [u8], x: Move, rows: &mut [Row]) -> Answer {
    unsafe { raw::dolzhev_enter(memory.as_mut_ptr(), memory.len(), x, rows.as_mut_ptr(), rows.len()) }
}

/// Takes the move of that number away; tells the notice, and the nodes opened while looking for moves to bring up.
pub fn withdraw(memory: &mut [u8], number: u16, rows: &mut [Row]) -> Answer {
    unsafe { raw::dolzhev_withdraw(memory.as_mut_ptr(), memory.len(), number, rows.as_mut_ptr(), rows.len()) }
}

/// Gives the move of that number the costs and the block; tells the notice.
pub fn recost(memory: &mut [u8], x: Move, rows: &mut [Row]) -> Answer {
    unsafe { raw::dolzhev_recost(memory.as_mut_ptr(), memory.len(), x, rows.as_mut_ptr(), rows.len()) }
}

/// What [`enter`] would answer and tell.
pub fn preview_enter(memory: &[u8], x: Move, rows: &mut [Row]) -> Answer {
    unsafe { raw::dolzhev_preview_enter(memory.as_ptr(), memory.len(), x, rows.as_mut_ptr(), rows.len()) }
}

/// What [`withdraw`] would answer and tell.
pub fn preview_withdraw(memory: &[u8], number: u16, rows: &mut [Row]) -> Answer {
    unsafe { raw::dolzhev_preview_withdraw(memory.as_ptr(), memory.len(), number, rows.as_mut_ptr(), rows.len()) }
}

/// What [`recost`] would answer and tell.
pub fn preview_recost(memory: &[u8], x: Move, rows: &mut [Row]) -> Answer {
    unsafe { raw::dolzhev_preview_recost(memory.as_ptr(), memory.len(), x, rows.as_mut_ptr(), rows.len()) }
}

/// The moves that no move dominates, of those with equal costs the one of lowest number alone, and the nodes opened.
pub fn list(memory: &[u8], rows: &mut [Row]) -> Answer {
    unsafe { raw::dolzhev_list(memory.as_ptr(), memory.len(), rows.as_mut_ptr(), rows.len()) }
}

/// The moves that b others or fewer dominate.
pub fn band(memory: &[u8], b: usize, rows: &mut [Row]) -> Answer {
    unsafe { raw::dolzhev_band(memory.as_ptr(), memory.len(), b, rows.as_mut_ptr(), rows.len()) }
}

/// The first t listed moves by number of moves dominated, which stands in place of a mark.
pub fn rank(memory: &[u8], t: usize, rows: &mut [Row]) -> Answer {
    unsafe { raw::dolzhev_rank(memory.as_ptr(), memory.len(), t, rows.as_mut_ptr(), rows.len()) }
}

/// The moves that no move dominates on k of the costs.
pub fn on_k(memory: &[u8], k: usize, rows: &mut [Row]) -> Answer {
    unsafe { raw::dolzhev_on_k(memory.as_ptr(), memory.len(), k, rows.as_mut_ptr(), rows.len()) }
}

/// The moves that no move dominates on the chosen costs, bit i of the set standing for cost i.
pub fn chosen(memory: &[u8], set: usize, rows: &mut [Row]) -> Answer {
    unsafe { raw::dolzhev_chosen(memory.as_ptr(), memory.len(), set, rows.as_mut_ptr(), rows.len()) }
}

/// The list over the moves in the blocks that are open at a minute of the week, entry k being block k's.
pub fn hours(memory: &[u8], minute: usize, hours: &[BlockHours], rows: &mut [Row]) -> Answer {
    let (entries, len) = (hours.as_ptr(), hours.len());
    unsafe { raw::dolzhev_hours(memory.as_ptr(), memory.len(), minute, entries, len, rows.as_mut_ptr(), rows.len()) }
}
