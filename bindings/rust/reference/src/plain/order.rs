//! Z-order, side and corners of two moves' costs, by the highest bit in which they differ.
use crate::{Costs, Move, COSTS};

fn open_groups(p: &Costs, q: &Costs) -> u32 {
    let differing = (0..COSTS).fold(0, |bits, i| bits | p[i] ^ q[i]);
    16 - differing.leading_zeros()
}

/// The bits of a group, the first cost's highest.
fn group(costs: &[u16], j: u32) -> u16 {
    costs.iter().fold(0, |group, cost| group << 1 | cost >> j & 1)
}

/// Of moves with d costs.
#[inline]
pub fn stands_before(d: usize, p: &Move, q: &Move) -> bool {
    match open_groups(&p.costs, &q.costs) {
        0 => p.number < q.number,
        open => group(&p.costs[..d], open - 1) < group(&q.costs[..d], open - 1),
    }
}

pub fn side(p: &Costs, q: &Costs) -> u32 {
    1 << open_groups(p, q)
}

pub fn near(p: &Costs, q: &Costs) -> Costs {
    let open = open_groups(p, q);
    p.map(|cost| (u32::from(cost) >> open << open) as u16)
}

/// Where both have no cost, the corner may have one: nobody asks whether it is greater there.
pub fn far(p: &Costs, q: &Costs) -> Costs {
    let below = ((1u32 << open_groups(p, q)) - 1) as u16;
    p.map(|cost| cost | below)
}
