//! The paper's lists, each by all pairs. `moves` stand in Z-order.
use super::dominance::{dominates, dominates_at, dominates_on, hides};
use crate::{Move, Row};

pub fn row(mark: u16, x: &Move) -> Row {
    Row { mark, number: x.number, costs: x.costs }
}

/// The moves that no move beats.
fn unbeaten(moves: &[Move], beats: impl Fn(&Move, &Move) -> bool) -> Vec<Move> {
    let unbeaten = |q: &&Move| !moves.iter().any(|p| beats(p, q));
    moves.iter().filter(unbeaten).copied().collect()
}

/// The list: Definition 2 with Card 4's rule.
pub fn skyline(d: usize, moves: &[Move]) -> Vec<Move> {
    unbeaten(moves, |p, q| hides(d, p, q))
}

/// Definition 3.
pub fn band(d: usize, moves: &[Move], b: usize) -> Vec<Move> {
    let dominators = |q: &Move| moves.iter().filter(|p| dominates(d, &p.costs, &q.costs)).count();
    moves.iter().filter(|q| dominators(q) <= b).copied().collect()
}

/// Definition 4 with document 01's tie: the sort is stable, so equals stay in Z-order.
pub fn rank(d: usize, moves: &[Move], t: usize) -> Vec<Row> {
    let dominated = |p: &Move| moves.iter().filter(|q| dominates(d, &p.costs, &q.costs)).count();
    let mut rows: Vec<Row> = skyline(d, moves).iter().map(|p| row(dominated(p) as u16, p)).collect();
    rows.sort_by_key(|row| std::cmp::Reverse(row.mark));
    rows.truncate(t);
    rows
}

/// Definition 6.
pub fn on_k(d: usize, moves: &[Move], k: usize) -> Vec<Move> {
    unbeaten(moves, |p, q| dominates_on(d, k, &p.costs, &q.costs))
}

/// Definition 8.
pub fn chosen(d: usize, moves: &[Move], set: usize) -> Vec<Move> {
    unbeaten(moves, |p, q| dominates_at(d, set, &p.costs, &q.costs))
}
