//! A move taken out of the rows; the moves under removed nodes are entered again.
use super::bytes::Head;
use super::enter::enter_row;
use crate::Move;
use std::ops::Range;

/// The rows of the highest removed node, or the move's own.
fn removed(m: &[u8], head: Head, place: usize) -> Range<usize> {
    let mut rows = place..place + 1;
    for level in 1..head.height(m, 0) {
        let s = head.node_start(m, level, rows.start);
        let e = head.node_end(m, level, rows.start);
        if head.entries(m, level - 1, s, e) > 3 {
            break;
        }
        rows = s..e;
    }
    rows
}

/// The other numbers of the rows put into the work area; how many they are.
fn save(m: &mut [u8], head: Head, rows: &Range<usize>, number: u16) -> usize {
    let mut saved = 0;
    for i in rows.clone() {
        let other = head.number(m, i);
        if other != number {
            head.set_work(m, saved, other);
            saved += 1;
        }
    }
    saved
}

/// The row after the removed ones starts at least what they started.
fn cut_out(m: &mut [u8], head: Head, rows: &Range<usize>) {
    let level = head.height(m, rows.start);
    head.move_rows(m, rows.end..head.n, rows.start);
    if rows.end < head.n {
        let height = head.height(m, rows.start).max(level);
        head.set_height(m, rows.start, height);
    }
}

fn lower_root(m: &mut [u8], head: Head) {
    if head.n == 0 {
        return;
    }
    let mut top = head.height(m, 0);
    while top > 1 && head.entries(m, top - 1, 0, head.n) == 1 {
        top -= 1;
        head.set_height(m, 0, top);
    }
}

/// The rows then hold one move fewer than `head` says.
pub fn withdraw_row(m: &mut [u8], head: Head, place: usize) {
    let number = head.number(m, place);
    let rows = removed(m, head, place);
    let saved = save(m, head, &rows, number);
    cut_out(m, head, &rows);
    let left = head.n - rows.len();
    lower_root(m, head.with_moves(left));
    for i in 0..saved {
        let number = head.work(m, i);
        let x = Move { number, costs: head.costs(m, number) };
        enter_row(m, head.with_moves(left + i), &x);
    }
}
