//! Addresses and regions in Z-order, without a board. `d` is the number of costs, 2 to 8.
//!
//! The headers give an address in two words, since standard C has no number of 128 bits. Rust has one: here an address is a
//! `u128`, Z-order is the order of these numbers, and at the border each becomes the two words.
//!
//! ```
//! use dolzhev::{padded, zorder, Refusal};
//!
//! assert_eq!(zorder::address(2, padded([1, 6]))?, 22);
//! assert_eq!(zorder::costs_of(8, 1 << 127)?, padded([0x8000]));
//! assert_eq!(zorder::costs_of(4, 1 << 64), Err(Refusal::BadArgument { place: None }));
//! # Ok::<(), Refusal>(())
//! ```
use crate::Refusal;
use dolzhev_sys::{self as raw, Costs};

/// The square between two corners.
#[derive(Clone, Copy, Debug, PartialEq, Eq)]
pub struct Region {
    /// The corner with the least costs.
    pub near: Costs,
    /// The corner with the greatest costs.
    pub far: Costs,
    /// 2 to the number of groups in which the two addresses do not agree.
    pub side: usize,
}

/// The address of the first d costs. Refused if d is out of range or a cost past d is not zero.
pub fn address(d: usize, costs: Costs) -> Result<u128, Refusal> {
    let answer = raw::address(d, costs);
    Refusal::judge(answer.refusal, answer.detail, None).map(|()| answer.address.into())
}

/// The d costs of an address, and zeros past them. Refused if d is out of range or the address is 2 to the power 16·d or
/// more.
pub fn costs_of(d: usize, address: u128) -> Result<Costs, Refusal> {
    let answer = raw::costs_of(d, address.into());
    Refusal::judge(answer.refusal, answer.detail, None).map(|()| answer.costs)
}

/// The region of the addresses a ≤ b. Refused if d is out of range, if either address is 2 to the power 16·d or more, or if a
/// is the greater.
pub fn region(d: usize, a: u128, b: u128) -> Result<Region, Refusal> {
    let raw::RegionAnswer { refusal, detail, near, far, side } = raw::region(d, a.into(), b.into());
    Refusal::judge(refusal, detail, None).map(|()| Region { near, far, side })
}
