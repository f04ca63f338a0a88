//! Bytes not in use, as docs/DECISIONS.md names them, decide nothing.
use reference::layout;
use reference::library;
use reference::random::Random;
use reference::tries::{flipped, try_all, used_board, Seen};
use reference::COSTS;
use std::ops::Range;

/// The bytes that the layout names as not in use whatever the board holds.
fn unused(c: usize) -> Vec<usize> {
    let parts: [Range<usize>; 2] = [6..16, 16 + 21 * c..64 * c + 1064];
    parts.into_iter().flatten().collect()
}

/// One at a time.
#[test]
fn damaged_unused_bytes() {
    let mut random = Random::new(15);
    let mut seen = Seen::default();
    for (c, d) in [(16, 2), (16, 5), (16, COSTS)] {
        let bytes = used_board(library::ask, c, d, 13, d as u64);
        for at in unused(c) {
            try_all(library::ask, &flipped(&bytes, at, &mut random), &mut random, &mut seen);
        }
        assert_eq!(seen.unsound, 0, "a byte not in use made memory unsound");
    }
}

/// The bytes not in use on this board: rows past the last, marks, blocks and costs of numbers not on it, costs past d.
fn stale(bytes: &[u8]) -> Vec<usize> {
    let (content, _) = layout::sound(bytes).unwrap();
    let (c, d, n) = (content.c, content.d, content.moves.len());
    let mut stale: Vec<usize> = (16 + 2 * n..16 + 2 * c).chain(16 + 2 * c + n..16 + 3 * c).collect();
    for number in 0..c {
        let on_board = content.moves.iter().any(|x| usize::from(x.number) == number);
        let costs = 16 + 5 * c + 16 * number;
        let used = if on_board { 2 * d } else { 0 };
        stale.extend(costs + used..costs + 16);
        if !on_board {
            stale.extend([16 + 3 * c + number, 16 + 4 * c + number]);
        }
    }
    stale
}

/// All of them at once, with the same byte and with any.
#[test]
fn overwritten_unused_bytes() {
    let mut random = Random::new(20);
    let mut seen = Seen::default();
    for (c, d) in [(16, 2), (17, 3), (40, 4), (17, 5), (40, COSTS)] {
        let bytes = used_board(library::ask, c, d, 12, 30 + d as u64);
        for byte in [Some(0), Some(1), Some(255), None] {
            let mut damaged = bytes.clone();
            for at in unused(c).into_iter().chain(stale(&bytes)) {
                damaged[at] = byte.unwrap_or(random.word() as u8);
            }
            try_all(library::ask, &damaged, &mut random, &mut seen);
        }
    }
    assert_eq!((seen.sound, seen.unsound), (20, 0));
}
