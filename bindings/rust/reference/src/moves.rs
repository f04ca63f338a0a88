//! A move on the board.
use crate::{Costs, Given};

/// Document 01's move. Its block stands beside it: Z-order, the tree, the list and the notices do not look at that.
#[derive(Clone, Copy, Debug, PartialEq, Eq)]
pub struct Move {
    pub number: u16,
    pub costs: Costs,
}

impl Move {
    /// The move as it is given to a call.
    pub fn in_block(self, block: u16) -> Given {
        Given { number: self.number, block, costs: self.costs }
    }
}

impl From<Given> for Move {
    fn from(given: Given) -> Self {
        Move { number: given.number, costs: given.costs }
    }
}
