//! Whether the memory is sound.
use super::bytes::Head;
use super::marks::marks_right;
use super::order::stands_before;
use crate::{BLOCKS, COSTS};

fn head(m: &[u8]) -> Option<Head> {
    if m.len() < 16 || !Head::has_format(m) {
        return None;
    }
    let head = Head::read(m);
    let fits = (16..=4096).contains(&head.c) && (2..=COSTS).contains(&head.d) && head.n <= head.c.into();
    (fits && m.len() >= 64 * usize::from(head.c) + 1024).then_some(head)
}

fn numbers_right(m: &[u8], head: Head) -> bool {
    head.numbers(m, 0..head.n).all(|number| number < head.c && usize::from(head.block(m, number)) < BLOCKS)
}

fn order_right(m: &[u8], head: Head) -> bool {
    (1..head.n).all(|i| stands_before(head.d, &head.move_at(m, i - 1), &head.move_at(m, i)))
}

/// Whether every node at a level has `least` to 8 entries.
fn counts_right(heights: &[u8], level: u8, least: usize) -> bool {
    let mut entries = 1;
    for &height in &heights[1..] {
        if height >= level {
            if !(least..=8).contains(&entries) {
                return false;
            }
            entries = 1;
        } else if height + 1 >= level {
            entries += 1;
        }
    }
    (least..=8).contains(&entries)
}

fn least_entries(top: u8, level: u8) -> usize {
    match level {
        _ if level < top => 3,
        1 => 1,
        _ => 2,
    }
}

fn heights_right(heights: &[u8]) -> bool {
    let Some((&top, others)) = heights.split_first() else {
        return true;
    };
    let highest = top > 0 && others.iter().all(|&height| height < top);
    highest && (1..=top).rev().all(|level| counts_right(heights, level, least_entries(top, level)))
}

pub fn sound(m: &[u8]) -> Option<Head> {
    let head = head(m)?;
    let right =
        numbers_right(m, head) && order_right(m, head) && heights_right(head.heights(m)) && marks_right(m, head);
    right.then_some(head)
}
