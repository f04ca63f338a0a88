//! The search that the calls share. The places stand in runs of 64, each with the least costs of its moves: a run whose least
//! costs exceed the limits has no move within them.
use super::beats::{exceeds, least};
use super::bytes::Head;
use crate::{Costs, COSTS};
use std::iter::successors;
use std::ops::Range;

pub const RUN: usize = 64;
pub const RUNS: usize = 4096 / RUN;

/// Which moves a search looks at.
pub trait Among: Copy {
    fn looks(self, m: &[u8], head: Head, number: u16) -> bool;

    /// The costs that it goes by.
    fn costs(self, stored: Costs) -> Costs {
        stored
    }

    fn looked_at(self, m: &[u8], head: Head, number: u16) -> Option<Costs> {
        self.looks(m, head, number).then(|| self.costs(head.stored(m, number)))
    }

    /// Whether a move is looked at and nowhere above the limits.
    fn fits(self, m: &[u8], head: Head, number: u16, limits: &Costs) -> bool {
        self.looked_at(m, head, number).is_some_and(|costs| !exceeds(&costs, limits))
    }
}

#[derive(Clone, Copy)]
pub struct All;
#[derive(Clone, Copy)]
pub struct Listed;
/// By turned costs: the search then finds the moves that are nowhere below.
#[derive(Clone, Copy)]
pub struct Hidden;
/// Bit k stands for block k.
#[derive(Clone, Copy)]
pub struct InBlocks(pub u64);

impl Among for All {
    fn looks(self, _: &[u8], _: Head, _: u16) -> bool {
        true
    }
}

impl Among for Listed {
    fn looks(self, m: &[u8], head: Head, number: u16) -> bool {
        head.listed(m, number)
    }
}

impl Among for Hidden {
    fn looks(self, m: &[u8], head: Head, number: u16) -> bool {
        !head.listed(m, number)
    }

    fn costs(self, stored: Costs) -> Costs {
        turned(&stored)
    }
}

impl Among for InBlocks {
    fn looks(self, m: &[u8], head: Head, number: u16) -> bool {
        self.0 >> (head.block(m, number) % 64) & 1 == 1
    }
}

/// The least cost made the greatest.
pub fn turned(costs: &Costs) -> Costs {
    costs.map(|cost| !cost)
}

/// Some places, run by run.
pub fn runs(places: Range<usize>) -> impl Iterator<Item = Range<usize>> {
    let runs = places.start / RUN..places.end.div_ceil(RUN);
    runs.map(move |run| places.start.max(RUN * run)..places.end.min(RUN * run + RUN))
}

pub struct Search<A> {
    corners: [Costs; RUNS],
    among: A,
}

impl<A: Among> Search<A> {
    pub fn empty(among: A) -> Self {
        Search { corners: [[u16::MAX; COSTS]; RUNS], among }
    }

    pub fn over(among: A, m: &[u8], head: Head) -> Self {
        let mut search = Search::empty(among);
        (0..head.n).for_each(|place| search.add(m, head, place));
        search
    }

    /// A move that it looks at, by the costs that it goes by.
    pub fn put(&mut self, place: usize, costs: &Costs) {
        let corner = &mut self.corners[place / RUN];
        *corner = least(corner, costs);
    }

    pub fn add(&mut self, m: &[u8], head: Head, place: usize) {
        if let Some(costs) = self.among.looked_at(m, head, head.number(m, place)) {
            self.put(place, &costs);
        }
    }

    /// The first of some places with such a move.
    pub fn first(&self, m: &[u8], head: Head, places: Range<usize>, limits: &Costs) -> Option<usize> {
        let mut from = places.start;
        while from < places.end {
            let run = from / RUN;
            let to = places.end.min(RUN * run + RUN);
            if !exceeds(&self.corners[run], limits) {
                let found = head.numbers(m, from..to).position(|number| self.among.fits(m, head, number, limits));
                if let Some(ahead) = found {
                    return Some(from + ahead);
                }
            }
            from = to;
        }
        None
    }

    /// All of these places.
    pub fn each<'a>(
        &'a self,
        m: &'a [u8],
        head: Head,
        places: Range<usize>,
        limits: Costs,
    ) -> impl Iterator<Item = usize> + 'a {
        let end = places.end;
        successors(self.first(m, head, places, &limits), move |&last| self.first(m, head, last + 1..end, &limits))
    }

    /// A place with a move that hides the one at `place`: of earlier moves those do that are nowhere greater. `last`, the
    /// place found before, is tried first.
    pub fn hider(&self, m: &[u8], head: Head, place: usize, last: usize) -> Option<usize> {
        let q = head.limits(m, head.number(m, place));
        if last < place && self.among.fits(m, head, head.number(m, last), &q) {
            return Some(last);
        }
        self.first(m, head, 0..place, &q)
    }
}
