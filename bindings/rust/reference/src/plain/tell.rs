//! The notice of a change, and the marks set by it.
use super::bytes::Head;
use super::set::Set;
use super::upkeep::{Swap, Upkeep};
use crate::lists::row;
use crate::Row;
use std::ops::Range;

/// The rows of the moves of a set at some places.
fn rows_of<'a>(
    m: &'a [u8],
    head: Head,
    places: Range<usize>,
    set: &'a Set,
    mark: u16,
) -> impl Iterator<Item = Row> + 'a {
    let found = places.filter(move |&i| set.has(head.number(m, i)));
    found.map(move |i| row(mark, &head.move_at(m, i)))
}

/// The notice, the coming move at its place among the others.
pub fn tell(m: &[u8], head: Head, swap: &Swap, upkeep: &Upkeep, rows: &mut [Row]) {
    let place = swap.comes.map_or(head.n, |(place, _)| place);
    let coming = swap.comes.filter(|_| upkeep.listed).map(|(_, x)| row(2, &x));
    let notice = rows_of(m, head, 0..head.n, &upkeep.leaving, 1)
        .chain(rows_of(m, head, 0..place, &upkeep.entering, 2))
        .chain(coming)
        .chain(rows_of(m, head, place..head.n, &upkeep.entering, 2));
    for (lent, told) in rows[..upkeep.need].iter_mut().zip(notice) {
        *lent = told;
    }
}

pub fn set_marks(m: &mut [u8], head: Head, upkeep: &Upkeep) {
    for i in 0..head.n {
        let number = head.number(m, i);
        if upkeep.leaving.has(number) {
            head.set_listed(m, number, false);
        } else if upkeep.entering.has(number) {
            head.set_listed(m, number, true);
        }
    }
}
