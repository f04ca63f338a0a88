//! A move withdrawn from the tree, or given new costs.
use super::address::key;
use super::entering::enter;
use super::node::{Node, LEAST_ENTRIES};
use crate::{Costs, Move};

/// The move taken out of a node; children left with too few entries are removed, their moves put aside.
fn take_out(d: usize, node: &mut Node, x: &Move, aside: &mut Vec<Move>) {
    match node {
        Node::Leaf(moves) => moves.retain(|y| y.number != x.number),
        Node::Upper(children) => {
            let holds = |child: &Node| key(d, child.last()) >= key(d, x);
            let place = children.iter().position(holds).unwrap();
            take_out(d, &mut children[place], x, aside);
            if children[place].entries() < LEAST_ENTRIES {
                aside.extend(children.remove(place).moves());
            }
        }
    }
}

/// An upper root left with one child gives way to it, repeatedly; a root leaf left empty is no node.
fn settled(mut root: Node) -> Option<Node> {
    loop {
        root = match root {
            Node::Upper(mut children) if children.len() == 1 => children.remove(0),
            Node::Leaf(moves) if moves.is_empty() => return None,
            root => return Some(root),
        }
    }
}

/// The tree without the move.
pub fn withdraw(d: usize, mut root: Node, x: &Move) -> Option<Node> {
    let mut aside = Vec::new();
    take_out(d, &mut root, x, &mut aside);
    aside.sort_by_key(|y| key(d, y));
    aside.iter().fold(settled(root), |tree, y| Some(enter(d, tree, y)))
}

/// Withdraw, then enter, unless the costs are equal.
pub fn recost(d: usize, root: Node, x: &Move, costs: Costs) -> Option<Node> {
    if x.costs == costs {
        return Some(root);
    }
    let without = withdraw(d, root, x);
    Some(enter(d, without, &Move { number: x.number, costs }))
}
