//! When one move beats another. All costs are compared, those past d being zero, and none ends the comparison: so the compiler
//! takes a row at once.
use crate::{Costs, Move};

/// Whether p is somewhere greater.
pub fn exceeds(p: &Costs, q: &Costs) -> bool {
    p.iter().zip(q).fold(false, |exceeds, (a, b)| exceeds | (a > b))
}

/// The lesser of each two costs.
pub fn least(p: &Costs, q: &Costs) -> Costs {
    std::array::from_fn(|i| p[i].min(q[i]))
}

/// The greater.
pub fn greatest(p: &Costs, q: &Costs) -> Costs {
    std::array::from_fn(|i| p[i].max(q[i]))
}

/// Whether p keeps q out of the list.
pub fn hides(p: &Move, q: &Move) -> bool {
    !exceeds(&p.costs, &q.costs) && (p.number < q.number || exceeds(&q.costs, &p.costs))
}

/// Definition 5.
pub fn dominates_on(d: usize, k: usize, p: &Costs, q: &Costs) -> bool {
    let greater: u16 = p.iter().zip(q).map(|(a, b)| u16::from(a > b)).sum();
    k + usize::from(greater) <= d && exceeds(q, p)
}

/// Definition 7, the set given by bits of the costs.
pub fn dominates_at(set: &Costs, p: &Costs, q: &Costs) -> bool {
    let chosen = |costs: &Costs| std::array::from_fn(|i| costs[i] & set[i]);
    let (p, q) = (chosen(p), chosen(q));
    !exceeds(&p, &q) && exceeds(&q, &p)
}
