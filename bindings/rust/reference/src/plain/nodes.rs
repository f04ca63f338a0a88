//! The search through the nodes, a parent before its children: a node that is not opened is passed by with all below it.
use super::beats::exceeds;
use super::bytes::{limits, Head};
use super::order::{far, near};
use super::search::{Listed, Search};
use crate::Costs;
use std::ops::Range;

/// What opens a node. Where a move goes, it is not among the listed ones, and opens only nodes whose far corner it does not exceed.
struct Opening<'a> {
    m: &'a [u8],
    head: Head,
    listed: Search<Listed>,
    goes: Option<usize>,
}

impl Opening<'_> {
    /// Whether a listed move at a place before, other than the going one, dominates the near corner of a node.
    fn corner_dominated(&self, place: usize, corner: &Costs) -> bool {
        let (m, head) = (self.m, self.head);
        let mut fitting = self.listed.each(m, head, 0..place, limits(&head.used, corner));
        fitting.any(|j| Some(j) != self.goes && exceeds(corner, &head.costs_at(m, j)))
    }

    /// Whether a move goes and is somewhere greater than the far corner of a node.
    fn exceeds_far(&self, corner: &Costs) -> bool {
        self.goes.is_some_and(|goes| exceeds(&self.head.costs_at(self.m, goes), corner))
    }

    fn opens(&self, node: &Range<usize>) -> bool {
        let [first, last] = [node.start, node.end - 1].map(|place| self.head.costs_at(self.m, place));
        !self.exceeds_far(&far(&first, &last)) && !self.corner_dominated(node.start, &near(&first, &last))
    }
}

/// How many nodes are opened, for a list or for the move at a place that goes. The places of each leaf among them are handed on.
pub fn nodes_opened(m: &[u8], head: Head, goes: Option<usize>, mut leaf: impl FnMut(Range<usize>)) -> usize {
    let opening = Opening { m, head, listed: Search::over(Listed, m, head), goes };
    let level_at = |i| if i < head.n { head.height(m, i) } else { 0 };
    let (mut opened, mut i, mut level) = (0, 0, level_at(0));
    while i < head.n {
        let node = i..head.node_end(m, level, i);
        let opens = opening.opens(&node);
        opened += usize::from(opens);
        if opens && level > 1 {
            level -= 1;
            continue;
        }
        i = node.end;
        level = level_at(i);
        if opens {
            leaf(node);
        }
    }
    opened
}
