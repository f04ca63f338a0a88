//! Addresses, Z-order and regions.
use crate::{AddressAnswer, AddressWords, Costs, CostsAnswer, Move, RegionAnswer, COSTS};

const GROUPS: usize = 16;

/// The group for bit j: bit j of cost i stands before that of cost i + 1.
fn group(d: usize, costs: &Costs, j: usize) -> u128 {
    costs[..d].iter().fold(0, |group, cost| group << 1 | u128::from(cost >> j & 1))
}

pub fn address(d: usize, costs: &Costs) -> u128 {
    (0..GROUPS).rev().fold(0, |address, j| address << d | group(d, costs, j))
}

/// Z-order is the order of these.
pub fn key(d: usize, x: &Move) -> (u128, u16) {
    (address(d, &x.costs), x.number)
}

/// The groups of an address, highest first.
fn groups(d: usize, address: u128) -> impl Iterator<Item = u128> {
    (0..GROUPS).rev().map(move |j| address >> (d * j) & ((1 << d) - 1))
}

fn separated(d: usize, address: u128) -> Costs {
    let mut costs = [0; COSTS];
    for group in groups(d, address) {
        for (i, cost) in costs[..d].iter_mut().enumerate() {
            *cost = *cost << 1 | (group >> (d - 1 - i) & 1) as u16;
        }
    }
    costs
}

fn groups_not_kept(d: usize, a: u128, b: u128) -> usize {
    let agreeing = groups(d, a).zip(groups(d, b)).take_while(|(g, h)| g == h).count();
    GROUPS - agreeing
}

pub fn side(d: usize, a: u128, b: u128) -> usize {
    1 << groups_not_kept(d, a, b)
}

/// The near and the far corner.
pub fn corners(d: usize, a: u128, b: u128) -> (Costs, Costs) {
    let bits_not_kept = d * groups_not_kept(d, a, b);
    let kept = u128::MAX.checked_shl(bits_not_kept as u32).unwrap_or(0);
    (separated(d, a & kept), separated(d, a & kept | !kept))
}

/// Whether a cost past d is not zero.
pub fn costs_past(d: usize, costs: &Costs) -> bool {
    costs[d..].iter().any(|&cost| cost != 0)
}

fn count_bad(d: usize) -> bool {
    !(2..=COSTS).contains(&d)
}

fn too_large(d: usize, address: u128) -> bool {
    address.checked_shr(16 * d as u32).is_some_and(|above| above != 0)
}

pub fn address_answer(d: usize, costs: &Costs) -> AddressAnswer {
    if count_bad(d) {
        return AddressAnswer { refusal: 2, ..Default::default() };
    }
    if costs_past(d, costs) {
        return AddressAnswer { refusal: 7, ..Default::default() };
    }
    AddressAnswer { refusal: 0, detail: 0, address: address(d, costs).into() }
}

pub fn costs_answer(d: usize, address: AddressWords) -> CostsAnswer {
    let address = address.into();
    if count_bad(d) {
        return CostsAnswer { refusal: 2, ..Default::default() };
    }
    if too_large(d, address) {
        return CostsAnswer { refusal: 7, ..Default::default() };
    }
    CostsAnswer { refusal: 0, detail: 0, costs: separated(d, address) }
}

pub fn region_answer(d: usize, a: AddressWords, b: AddressWords) -> RegionAnswer {
    let (a, b) = (a.into(), b.into());
    if count_bad(d) {
        return RegionAnswer { refusal: 2, ..Default::default() };
    }
    if too_large(d, a) || too_large(d, b) || a > b {
        return RegionAnswer { refusal: 7, ..Default::default() };
    }
    let (near, far) = corners(d, a, b);
    RegionAnswer { refusal: 0, detail: 0, near, far, side: side(d, a, b) }
}
