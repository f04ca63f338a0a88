//! The tree as document 01 has it: a nest of nodes.
use super::address::{address, corners, side};
use super::dominance::dominates;
use crate::{Costs, Move};
use std::fmt;

pub const MOST_ENTRIES: usize = 8;
pub const LEAST_ENTRIES: usize = 3;

#[derive(Clone, Debug, PartialEq, Eq)]
pub enum Node {
    Leaf(Vec<Move>),
    Upper(Vec<Node>),
}

impl Node {
    pub fn entries(&self) -> usize {
        match self {
            Node::Leaf(moves) => moves.len(),
            Node::Upper(children) => children.len(),
        }
    }

    pub fn first(&self) -> &Move {
        match self {
            Node::Leaf(moves) => &moves[0],
            Node::Upper(children) => children[0].first(),
        }
    }

    pub fn last(&self) -> &Move {
        match self {
            Node::Leaf(moves) => &moves[moves.len() - 1],
            Node::Upper(children) => children[children.len() - 1].last(),
        }
    }

    pub fn moves(&self) -> Vec<Move> {
        match self {
            Node::Leaf(moves) => moves.clone(),
            Node::Upper(children) => children.iter().flat_map(Node::moves).collect(),
        }
    }

    /// The least and the greatest address.
    fn span(&self, d: usize) -> (u128, u128) {
        (address(d, &self.first().costs), address(d, &self.last().costs))
    }

    pub fn side(&self, d: usize) -> usize {
        let (least, greatest) = self.span(d);
        side(d, least, greatest)
    }

    /// The near and the far corner.
    fn corners(&self, d: usize) -> (Costs, Costs) {
        let (least, greatest) = self.span(d);
        corners(d, least, greatest)
    }

    /// Whether a list opens this node: none of the moves dominates its near corner.
    pub fn opens(&self, d: usize, moves: &[Move]) -> bool {
        let (near, _) = self.corners(d);
        !moves.iter().any(|p| dominates(d, &p.costs, &near))
    }

    /// Whether withdrawing the listed move x opens this node (document 02, Card 1, with Card 4's clause): x dominates its far
    /// corner or equals it, and no other move of the list, as it is before, dominates its near one.
    pub fn opens_for(&self, d: usize, list: &[Move], x: &Move) -> bool {
        let (near, far) = self.corners(d);
        let mut others = list.iter().filter(|y| y.number != x.number);
        (dominates(d, &x.costs, &far) || x.costs == far) && !others.any(|y| dominates(d, &y.costs, &near))
    }

    /// Of this node and all below it, how many pass the test.
    pub fn count(&self, passes: &dyn Fn(&Node) -> bool) -> usize {
        let below = match self {
            Node::Leaf(_) => 0,
            Node::Upper(children) => children.iter().map(|child| child.count(passes)).sum(),
        };
        usize::from(passes(self)) + below
    }

    fn parts(&self) -> Vec<String> {
        match self {
            Node::Leaf(moves) => moves.iter().map(|x| x.number.to_string()).collect(),
            Node::Upper(children) => children.iter().map(Node::to_string).collect(),
        }
    }
}

/// Nested lists of move numbers.
impl fmt::Display for Node {
    fn fmt(&self, f: &mut fmt::Formatter) -> fmt::Result {
        write!(f, "[{}]", self.parts().join(","))
    }
}

/// The same of a whole board; `-` where there is no node.
pub fn written(tree: &Option<Node>) -> String {
    tree.as_ref().map_or("-".to_string(), Node::to_string)
}
