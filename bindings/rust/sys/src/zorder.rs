//! Addresses and regions, without the board.
use crate::raw::{self, ByValue};
use crate::types::{AddressAnswer, AddressWords, Costs, CostsAnswer, RegionAnswer};

/// The address of the first d costs.
pub fn address(d: usize, costs: Costs) -> AddressAnswer {
    unsafe { raw::dolzhev_address(d, ByValue { costs }) }
}

/// The d costs of an address.
pub fn costs_of(d: usize, address: AddressWords) -> CostsAnswer {
    unsafe { raw::dolzhev_costs_of(d, address) }
}

/// The region of the addresses a ≤ b.
pub fn region(d: usize, a: AddressWords, b: AddressWords) -> RegionAnswer {
    unsafe { raw::dolzhev_region(d, a, b) }
}
