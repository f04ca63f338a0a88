//! The tree of a load.
use super::node::{Node, LEAST_ENTRIES, MOST_ENTRIES};
use crate::Move;

/// Groups of eight; a last one of fewer than three takes from the one before until it has three.
fn groups<T: Clone>(entries: &[T]) -> Vec<Vec<T>> {
    let mut groups: Vec<Vec<T>> = entries.chunks(MOST_ENTRIES).map(<[T]>::to_vec).collect();
    if let [.., before, last] = groups.as_mut_slice() {
        while last.len() < LEAST_ENTRIES {
            last.insert(0, before.pop().unwrap());
        }
    }
    groups
}

/// `sorted` moves as a tree: each level is cut likewise up to the root.
pub fn load(sorted: &[Move]) -> Option<Node> {
    let mut level: Vec<Node> = groups(sorted).into_iter().map(Node::Leaf).collect();
    while level.len() > 1 {
        level = groups(&level).into_iter().map(Node::Upper).collect();
    }
    level.pop()
}
