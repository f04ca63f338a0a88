//! The marks: a move is hidden if a listed one before it is nowhere greater.
use super::bytes::Head;
use super::chunks::listed_right;
use super::hiders::hidden_right;
use super::search::{Listed, Search};

pub fn marks_right(m: &[u8], head: Head) -> bool {
    hidden_right(m, head) && listed_right(m, head)
}

/// From the first place on. What hid one move often hides the next.
pub fn mark_all(m: &mut [u8], head: Head) {
    let mut search = Search::empty(Listed);
    let mut last = 0;
    for i in 0..head.n {
        let hider = search.hider(m, head, i, last);
        head.set_listed(m, head.number(m, i), hider.is_none());
        search.add(m, head, i);
        last = hider.unwrap_or(last);
    }
}
