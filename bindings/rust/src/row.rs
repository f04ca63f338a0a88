//! The rows that the calls write into what the caller lends.
use dolzhev_sys as raw;
use raw::{Costs, COSTS};
use std::fmt;
use std::mem::{align_of, offset_of, size_of};

/// The costs given, and zeros past them up to the length of a row.
pub fn padded<const D: usize>(given: [u16; D]) -> Costs {
    const { assert!(D <= COSTS, "more costs than a row has") };
    let mut costs = [0; COSTS];
    costs[..D].copy_from_slice(&given);
    costs
}

/// What a row says of its move.
#[derive(Clone, Copy, Debug, PartialEq, Eq)]
pub enum Mark {
    /// It is in the list that was asked for.
    Listed,
    /// It was in the list and is not any more; of a preview, it is and would not be.
    Left,
    /// It was not in the list and is now; of a preview, it is not and would be.
    Entered,
}

/// A row told by every call but rank.
#[repr(C)]
#[derive(Clone, Copy, Default, PartialEq, Eq)]
pub struct Row {
    mark: u16,
    /// The move's number.
    pub number: u16,
    /// Its costs.
    pub costs: Costs,
}

/// A row told by rank.
#[repr(C)]
#[derive(Clone, Copy, Debug, Default, PartialEq, Eq)]
pub struct Ranked {
    /// How many moves the move dominates.
    pub dominated: u16,
    /// The move's number.
    pub number: u16,
    /// Its costs.
    pub costs: Costs,
}

impl Row {
    /// What the row says of its move.
    pub fn mark(&self) -> Mark {
        match self.mark {
            0 => Mark::Listed,
            1 => Mark::Left,
            2 => Mark::Entered,
            other => panic!("the linked archive wrote the mark {other}, which document 01 does not name"),
        }
    }

    /// Rows to lend to the archive.
    pub(crate) fn lend(rows: &mut [Row]) -> &mut [raw::Row] {
        // SAFETY: both structs are the same three fields in C's layout, of which any bytes are a value.
        unsafe { &mut *(rows as *mut [Row] as *mut [raw::Row]) }
    }
}

impl Ranked {
    /// Rows to lend to the archive.
    pub(crate) fn lend(rows: &mut [Ranked]) -> &mut [raw::Row] {
        // SAFETY: as above.
        unsafe { &mut *(rows as *mut [Ranked] as *mut [raw::Row]) }
    }
}

const _: () = {
    assert!(size_of::<Row>() == size_of::<raw::Row>() && align_of::<Row>() == align_of::<raw::Row>());
    assert!(offset_of!(Row, mark) == offset_of!(raw::Row, mark));
    assert!(offset_of!(Row, number) == offset_of!(raw::Row, number));
    assert!(offset_of!(Row, costs) == offset_of!(raw::Row, costs));
    assert!(size_of::<Ranked>() == size_of::<raw::Row>() && align_of::<Ranked>() == align_of::<raw::Row>());
    assert!(offset_of!(Ranked, dominated) == offset_of!(raw::Row, mark));
    assert!(offset_of!(Ranked, number) == offset_of!(raw::Row, number));
    assert!(offset_of!(Ranked, costs) == offset_of!(raw::Row, costs));
};

impl fmt::Debug for Row {
    fn fmt(&self, f: &mut fmt::Formatter) -> fmt::Result {
        let Row { number, costs, .. } = self;
        f.debug_struct("Row").field("mark", &self.mark()).field("number", number).field("costs", costs).finish()
    }
}
