//! Whether no listed move is hidden: the listed moves are held against each other in chunks of 64, as columns.
use super::beats::{exceeds, greatest, least};
use super::bytes::Head;
use super::columns::Columns;
use super::search::{runs, RUN, RUNS};
use crate::{Costs, COSTS};
use std::ops::Range;

const CHUNK: usize = 64;

/// The listed moves of some places, and the least of each of their costs.
struct Chunk {
    columns: Columns<CHUNK>,
    places: Range<usize>,
    low: Costs,
}

impl Chunk {
    fn empty() -> Chunk {
        Chunk { columns: Columns::new(), places: 0..0, low: [u16::MAX; COSTS] }
    }

    /// Whether a move of the chunk hides a later one with these limits.
    fn hides(&self, head: Head, limits: &Costs) -> bool {
        !exceeds(&self.low, limits) && self.columns.some_fits(head.d, limits)
    }

    /// The next listed moves taken, 64 or as many as there are; whether none of them hides another. The first becomes every
    /// column, so that each is a move of the chunk.
    fn take_next(&mut self, m: &[u8], head: Head) -> bool {
        self.places = self.places.end..head.n;
        self.low = [u16::MAX; COSTS];
        for (column, (i, number)) in head.listed_among(m, self.places.clone()).take(CHUNK).enumerate() {
            let costs = head.stored(m, number);
            if column == 0 {
                self.columns.fill(&costs);
            } else if self.hides(head, &head.limits(m, number)) {
                return false;
            }
            self.columns.put(column, &costs);
            self.low = least(&self.low, &costs);
            if column + 1 == CHUNK {
                self.places.end = i + 1;
            }
        }
        true
    }

    /// Whether it hides a listed move after it. Runs are passed by whose moves all have a limit below its least costs.
    fn hides_later(&self, m: &[u8], head: Head, highs: &[Costs; RUNS]) -> bool {
        let mut runs = runs(self.places.end..head.n).filter(|run| !exceeds(&self.low, &highs[run.start / RUN]));
        runs.any(|run| head.listed_among(m, run).any(|(_, number)| self.hides(head, &head.limits(m, number))))
    }
}

/// Of each run the greatest limits of its listed moves.
fn highs(m: &[u8], head: Head) -> [Costs; RUNS] {
    let mut highs = [[0; COSTS]; RUNS];
    for run in runs(0..head.n) {
        let high = &mut highs[run.start / RUN];
        *high = head.listed_among(m, run).fold(*high, |high, (_, number)| greatest(&high, &head.limits(m, number)));
    }
    highs
}

pub fn listed_right(m: &[u8], head: Head) -> bool {
    let mut chunk = Chunk::empty();
    let mut limits = None;
    while chunk.places.end < head.n {
        if !chunk.take_next(m, head) {
            return false;
        }
        let is_last = chunk.places.end == head.n;
        if !is_last && chunk.hides_later(m, head, limits.get_or_insert_with(|| highs(m, head))) {
            return false;
        }
    }
    true
}
