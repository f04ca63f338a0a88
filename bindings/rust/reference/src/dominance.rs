//! When one move beats another.
use crate::{Costs, Move};

/// On the costs named: nowhere greater and somewhere less.
fn beats(mut named: impl Iterator<Item = usize> + Clone, p: &Costs, q: &Costs) -> bool {
    named.clone().all(|i| p[i] <= q[i]) && named.any(|i| p[i] < q[i])
}

/// Definition 1.
pub fn dominates(d: usize, p: &Costs, q: &Costs) -> bool {
    beats(0..d, p, q)
}

/// Document 02, Card 4: whether p keeps q out of the list. Costs past d are zero.
pub fn hides(d: usize, p: &Move, q: &Move) -> bool {
    dominates(d, &p.costs, &q.costs) || p.costs == q.costs && p.number < q.number
}

/// Definition 5: on some k of the first d costs nowhere greater, and on one of these less. More than k fitting costs do as
/// well, since one that is less can always be among the k.
pub fn dominates_on(d: usize, k: usize, p: &Costs, q: &Costs) -> bool {
    let fitting = (0..d).filter(|&i| p[i] <= q[i]).count();
    let less = (0..d).any(|i| p[i] < q[i]);
    fitting >= k && less
}

/// Definition 7: on the costs of the set, bit i standing for cost i.
pub fn dominates_at(d: usize, set: usize, p: &Costs, q: &Costs) -> bool {
    beats((0..d).filter(|i| set >> i & 1 == 1), p, q)
}
