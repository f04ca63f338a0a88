//! A move entered into the tree.
use super::address::{address, key, side};
use super::node::{Node, MOST_ENTRIES};
use crate::Move;

/// Which of two neighbours takes a move between them: the one whose region then has the lesser side, the earlier on a tie.
fn earlier_takes(d: usize, earlier: &Node, later: &Node, x: &Move) -> bool {
    let new = address(d, &x.costs);
    let with_earlier = side(d, address(d, &earlier.first().costs), new);
    let with_later = side(d, new, address(d, &later.last().costs));
    with_earlier <= with_later
}

/// The place of the child to go down into.
fn child_for(d: usize, children: &[Node], x: &Move) -> usize {
    let new = key(d, x);
    let started = children.iter().filter(|child| key(d, child.first()) <= new).count();
    if started == 0 {
        return 0;
    }
    let earlier = started - 1;
    let held = new <= key(d, children[earlier].last());
    if held || started == children.len() || earlier_takes(d, &children[earlier], &children[started], x) {
        earlier
    } else {
        started
    }
}

/// The node cut so that its left part keeps that many entries.
fn cut(node: &Node, left: usize) -> (Node, Node) {
    match node {
        Node::Leaf(moves) => (Node::Leaf(moves[..left].to_vec()), Node::Leaf(moves[left..].to_vec())),
        Node::Upper(children) => (Node::Upper(children[..left].to_vec()), Node::Upper(children[left..].to_vec())),
    }
}

/// A node of nine in two: least sum of the two sides, then least left part.
fn split(d: usize, node: &Node) -> (Node, Node) {
    let cuts = (3..=6).map(|left| cut(node, left));
    cuts.min_by_key(|(left, right)| left.side(d) + right.side(d)).unwrap()
}

/// The nodes that stand in the place of this one with the move in it: one or two.
fn entered_below(d: usize, node: Node, x: &Move) -> Vec<Node> {
    let grown = match node {
        Node::Leaf(mut moves) => {
            let place = moves.partition_point(|y| key(d, y) < key(d, x));
            moves.insert(place, *x);
            Node::Leaf(moves)
        }
        Node::Upper(mut children) => {
            let place = child_for(d, &children, x);
            let child = children.remove(place);
            children.splice(place..place, entered_below(d, child, x));
            Node::Upper(children)
        }
    };
    if grown.entries() <= MOST_ENTRIES {
        return vec![grown];
    }
    let (left, right) = split(d, &grown);
    vec![left, right]
}

/// The tree with the move in it.
pub fn enter(d: usize, tree: Option<Node>, x: &Move) -> Node {
    let Some(root) = tree else {
        return Node::Leaf(vec![*x]);
    };
    let mut nodes = entered_below(d, root, x);
    if nodes.len() == 1 {
        nodes.remove(0)
    } else {
        Node::Upper(nodes)
    }
}
