//! Which bytes an accepted call may write, by "Bytes written" of docs/DECISIONS.md.
use super::board::PlainBoard;
use super::layout::blocks;
use crate::{Call, Change, Given};
use std::ops::Range;

/// `before` is the board that a change is made on, c the size of the one that it leaves. Previews and lists write none.
pub fn written(call: &Call, before: Option<&PlainBoard>, c: usize) -> Vec<Range<usize>> {
    let block = |given: Given| {
        let at = blocks(c) + usize::from(given.number);
        at..at + 1
    };
    let costs_stay = |given: Given| before.is_some_and(|board| board.costs_of(given.number) == Some(given.costs));
    let others = [4..6, 16..blocks(c), blocks(c) + c..16 + 23 * c];
    match *call {
        Call::Load { .. } => vec![0..6, 16..16 + 23 * c],
        Call::Change(Change::Recost(given)) if costs_stay(given) => vec![block(given)],
        Call::Change(change) => others.into_iter().chain(change.coming().map(block)).collect(),
        _ => vec![],
    }
}
