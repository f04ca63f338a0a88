//! Whether each move that is not listed is hidden by an earlier listed one.
use super::bytes::Head;
use super::columns::Columns;
use super::search::{Among, Listed, Search};
use crate::Costs;

const KEPT: usize = 8;

/// The last hiders that were searched for, and the last one that hid a move; until there are some, place 0, which is tried as
/// they are.
struct Hiders {
    columns: Columns<KEPT>,
    places: [usize; KEPT],
    oldest: usize,
    last: usize,
}

#[inline]
fn fits(m: &[u8], head: Head, place: usize, limits: &Costs) -> bool {
    Listed.fits(m, head, head.number(m, place), limits)
}

impl Hiders {
    fn new() -> Hiders {
        Hiders { columns: Columns::new(), places: [0; KEPT], oldest: 0, last: 0 }
    }

    /// Whether one of them is within the limits, the last one first.
    fn hide(&mut self, m: &[u8], head: Head, limits: &Costs) -> bool {
        if fits(m, head, self.last, limits) {
            return true;
        }
        self.last = self.places[self.columns.first_fitting(limits).unwrap_or(0)];
        fits(m, head, self.last, limits)
    }

    fn keep(&mut self, m: &[u8], head: Head, place: usize) {
        self.columns.put(self.oldest, &head.stored(m, head.number(m, place)));
        self.places[self.oldest] = place;
        self.oldest = (self.oldest + 1) % KEPT;
        self.last = place;
    }
}

pub fn hidden_right(m: &[u8], head: Head) -> bool {
    let mut hiders = Hiders::new();
    let mut listed = Search::empty(Listed);
    let mut nearest = 0;
    for (i, number) in head.numbers(m, 0..head.n).enumerate() {
        if head.listed(m, number) {
            listed.put(i, &head.stored(m, number));
            nearest = i;
            continue;
        }
        if hiders.hide(m, head, &head.limits(m, number)) {
            continue;
        }
        match listed.hider(m, head, i, nearest) {
            Some(place) => hiders.keep(m, head, place),
            None => return false,
        }
    }
    true
}
