//! What a change does to the list, found without writing.
use super::beats::{exceeds, hides};
use super::bytes::{limits, Head};
use super::nodes::nodes_opened;
use super::search::{All, Search};
use super::set::Set;
use crate::{Costs, Move};

/// The place of the move that goes; the move that comes and its place among those before the change.
pub struct Swap {
    pub goes: Option<usize>,
    pub comes: Option<(usize, Move)>,
}

/// Who leaves the list and who enters it, the coming move apart, and the nodes opened while looking for these; whether that
/// one is listed; the rows needed.
pub struct Upkeep {
    pub leaving: Set,
    pub entering: Set,
    pub opened: usize,
    pub listed: bool,
    pub need: usize,
}

impl Swap {
    fn coming_hides(&self, x: &Move) -> bool {
        self.comes.is_some_and(|(_, coming)| hides(&coming, x))
    }

    /// Whether a move at a place before, other than the going one, is nowhere greater.
    fn hidden_by_others(&self, m: &[u8], head: Head, all: &Search<All>, place: usize, costs: &Costs) -> bool {
        all.each(m, head, 0..place, limits(&head.used, costs)).any(|j| Some(j) != self.goes)
    }

    fn leaving(&self, m: &[u8], head: Head) -> Set {
        let listed = (0..head.n).filter(|&i| head.listed(m, head.number(m, i)));
        let leave = listed.filter(|&i| Some(i) == self.goes || self.coming_hides(&head.move_at(m, i)));
        leave.map(|i| head.number(m, i)).collect()
    }

    /// Whether the move at a place comes up where this listed one goes: it must be hidden, and only by that.
    fn comes_up(&self, m: &[u8], head: Head, all: &Search<All>, going: &Costs, place: usize) -> bool {
        let x = head.move_at(m, place);
        !head.listed(m, x.number)
            && !exceeds(going, &x.costs)
            && !self.coming_hides(&x)
            && !self.hidden_by_others(m, head, all, place, &x.costs)
    }

    /// The moves that come up, looked for in the leaves that are opened; and the nodes opened. None is unless a listed move
    /// goes.
    fn entering(&self, m: &[u8], head: Head, all: &Search<All>) -> (Set, usize) {
        let mut entering = Set::empty();
        let Some(goes) = self.goes.filter(|&goes| head.listed(m, head.number(m, goes))) else {
            return (entering, 0);
        };
        let going = head.costs_at(m, goes);
        let opened = nodes_opened(m, head, Some(goes), |leaf| {
            let come_up = leaf.filter(|&i| self.comes_up(m, head, all, &going, i));
            come_up.for_each(|i| entering.put(head.number(m, i)));
        });
        (entering, opened)
    }
}

pub fn upkeep_of(m: &[u8], head: Head, swap: &Swap) -> Upkeep {
    let all = Search::over(All, m, head);
    let leaving = swap.leaving(m, head);
    let (entering, opened) = swap.entering(m, head, &all);
    let listed = swap.comes.is_some_and(|(place, x)| !swap.hidden_by_others(m, head, &all, place, &x.costs));
    let need = leaving.len() + entering.len() + usize::from(listed);
    Upkeep { leaving, entering, opened, listed, need }
}
