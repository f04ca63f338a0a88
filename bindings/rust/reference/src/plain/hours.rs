//! The hours call on sound memory: of the moves in open blocks the listed ones are shown, and each other one is held against
//! those before it in open blocks.
use super::bytes::Head;
use super::lists::tell_where;
use super::refused;
use super::search::{Among, InBlocks, Search};
use crate::hours::{open, refusal};
use crate::{Answer, BlockHours, Row, BLOCKS};

fn open_blocks(minute: usize, hours: &[BlockHours]) -> InBlocks {
    let open = (0..BLOCKS).filter(|&block| open(minute, hours, block));
    InBlocks(open.fold(0, |blocks, block| blocks | 1 << block))
}

pub fn hours(m: &[u8], head: Head, minute: usize, hours: &[BlockHours], rows: &mut [Row]) -> Answer {
    let (refusal, detail) = refusal(minute, hours);
    if refusal != 0 {
        return refused(refusal, detail);
    }
    let blocks = open_blocks(minute, hours);
    let search = Search::over(blocks, m, head);
    let mut last = 0;
    tell_where(m, head, rows, |&i| {
        let number = head.number(m, i);
        if !blocks.looks(m, head, number) {
            return false;
        }
        if head.listed(m, number) {
            return true;
        }
        let hider = search.hider(m, head, i, last);
        last = hider.unwrap_or(last);
        hider.is_none()
    })
}
