//! The structs of the headers.

/// The costs of a row, whatever d is.
pub const COSTS: usize = 8;

/// The costs of a row, those past d zero. Less is better.
pub type Costs = [u16; COSTS];

/// An address: upper · 2^64 + lower. For d up to 4 the upper word is 0.
#[repr(C)]
#[derive(Clone, Copy, Debug, Default, PartialEq, Eq)]
pub struct AddressWords {
    /// The upper 64 bits.
    pub upper: u64,
    /// The lower 64 bits.
    pub lower: u64,
}

impl From<u128> for AddressWords {
    fn from(address: u128) -> Self {
        AddressWords { upper: (address >> 64) as u64, lower: address as u64 }
    }
}

impl From<AddressWords> for u128 {
    fn from(words: AddressWords) -> Self {
        u128::from(words.upper) << 64 | u128::from(words.lower)
    }
}

/// A move: a number below the board's size, its yard block, and its costs.
#[repr(C)]
#[derive(Clone, Copy, Debug, Default, PartialEq, Eq)]
pub struct Move {
    /// From 0 to C - 1.
    pub number: u16,
    /// From 0 to 63.
    pub block: u16,
    /// Those past d zero.
    pub costs: Costs,
}

/// A row told, without the block.
#[repr(C)]
#[derive(Clone, Copy, Debug, Default, PartialEq, Eq)]
pub struct Row {
    /// 0 listed, 1 left, 2 entered, of a preview would leave or enter; of rank the number of moves dominated.
    pub mark: u16,
    /// The move's number.
    pub number: u16,
    /// Its costs.
    pub costs: Costs,
}

/// What a call on a board answers.
#[repr(C)]
#[derive(Clone, Copy, Debug, Default, PartialEq, Eq)]
pub struct Answer {
    /// 0 where the call is accepted.
    pub refusal: usize,
    /// Of 8 the rows needed; of a load's 4, 5, 7 and 11 the place of the first row that fails; of 12 the lowest block with
    /// bad hours; else 0.
    pub detail: usize,
    /// The rows told.
    pub count: usize,
    /// Of list the nodes opened; of withdraw and its preview those opened while looking for moves to bring up, 0 if the move
    /// was not listed; else 0.
    pub opened: usize,
}

/// An address, zero where refused.
#[repr(C)]
#[derive(Clone, Copy, Debug, Default, PartialEq, Eq)]
pub struct AddressAnswer {
    /// 0 where the call is accepted.
    pub refusal: usize,
    /// Always 0.
    pub detail: usize,
    /// The address.
    pub address: AddressWords,
}

/// The costs of an address, zeros where refused.
#[repr(C)]
#[derive(Clone, Copy, Debug, Default, PartialEq, Eq)]
pub struct CostsAnswer {
    /// 0 where the call is accepted.
    pub refusal: usize,
    /// Always 0.
    pub detail: usize,
    /// The costs.
    pub costs: Costs,
}

/// The square between two corners, zeros where refused.
#[repr(C)]
#[derive(Clone, Copy, Debug, Default, PartialEq, Eq)]
pub struct RegionAnswer {
    /// 0 where the call is accepted.
    pub refusal: usize,
    /// Always 0.
    pub detail: usize,
    /// The corner with the least costs.
    pub near: Costs,
    /// The corner with the greatest costs.
    pub far: Costs,
    /// 2 to the number of groups not kept.
    pub side: usize,
}
