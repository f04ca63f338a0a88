//! Addresses and regions on random arguments, in and out of range: the archive against the model, and the library against
//! the archive; and what the second word of an address brings, by itself.
use dolzhev::zorder::Region;
use dolzhev::{padded, zorder, Costs, Refusal, COSTS};
use dolzhev_sys::{self as raw, AddressWords};
use reference::address::{address_answer, costs_answer, region_answer};
use reference::random::Random;

const ROUNDS: usize = 100_000;

/// Numbers with few bits and with many, and the ends of each range.
fn number(random: &mut Random, bits: usize) -> u128 {
    let kept = random.below(bits) + 1;
    let drawn = u128::from(random.word()) << 64 | u128::from(random.word());
    match random.below(8) {
        0 => 0,
        1 => u128::MAX >> (128 - bits),
        _ => drawn >> (128 - kept),
    }
}

fn costs(random: &mut Random, d: usize) -> Costs {
    let mut costs: Costs = std::array::from_fn(|_| number(random, 16) as u16);
    if random.percent(80) {
        costs[d.min(COSTS)..].fill(0);
    }
    costs
}

/// Whether the library hands on the value, or the refusal where there is one.
fn handed_on<T: PartialEq>(refusal: usize, value: T, handed: Result<T, Refusal>) -> bool {
    match handed {
        Ok(handed) => refusal == 0 && handed == value,
        Err(handed) => handed.number() == refusal,
    }
}

fn dimension(random: &mut Random) -> usize {
    if random.percent(80) {
        2 + random.below(COSTS - 1)
    } else {
        random.one_of(&[0, 1, COSTS + 1, usize::MAX])
    }
}

#[test]
fn costs_to_address_and_back() {
    let mut random = Random::new(1);
    let mut seen = [0; 9];
    for _ in 0..ROUNDS {
        let d = dimension(&mut random);
        let costs = costs(&mut random, d);
        let answer = raw::address(d, costs);
        assert_eq!(answer, address_answer(d, &costs), "d {d}, {costs:?}");
        seen[answer.refusal] += 1;
        let handed = zorder::address(d, costs);
        assert!(handed_on(answer.refusal, answer.address.into(), handed), "d {d}, {costs:?}");
        if let Ok(address) = handed {
            assert_eq!(zorder::costs_of(d, address), Ok(costs), "d {d}");
        }
    }
    assert!([0, 2, 7].iter().all(|&n| seen[n] > 1000), "{seen:?}");
}

#[test]
fn address_to_costs() {
    let mut random = Random::new(2);
    let mut seen = [0; 9];
    for _ in 0..ROUNDS {
        let d = dimension(&mut random);
        let address = number(&mut random, 128);
        let answer = raw::costs_of(d, address.into());
        assert_eq!(answer, costs_answer(d, address.into()), "d {d}, {address}");
        assert!(handed_on(answer.refusal, answer.costs, zorder::costs_of(d, address)), "d {d}, {address}");
        seen[answer.refusal] += 1;
    }
    assert!([0, 2, 7].iter().all(|&n| seen[n] > 1000), "{seen:?}");
}

#[test]
fn regions() {
    let mut random = Random::new(3);
    let mut seen = [0; 9];
    for _ in 0..ROUNDS {
        let d = dimension(&mut random);
        let bits = 16 * (1 + random.below(COSTS));
        let a = number(&mut random, bits);
        let b = match random.below(4) {
            0 => number(&mut random, 128),
            1 => a ^ number(&mut random, 12),
            2 => a ^ number(&mut random, 12) << 64,
            _ => a.saturating_add(number(&mut random, bits)),
        };
        let answer = raw::region(d, a.into(), b.into());
        assert_eq!(answer, region_answer(d, a.into(), b.into()), "d {d}, {a} to {b}");
        let region = Region { near: answer.near, far: answer.far, side: answer.side };
        assert!(handed_on(answer.refusal, region, zorder::region(d, a, b)), "d {d}, {a} to {b}");
        seen[answer.refusal] += 1;
    }
    assert!([0, 2, 7].iter().all(|&n| seen[n] > 1000), "{seen:?}");
}

/// Bit j of cost i is bit d·j + d − 1 − i of the address, in whichever word that lies.
#[test]
fn each_bit_in_its_word() {
    for d in 2..=COSTS {
        for (i, j) in (0..d).flat_map(|i| (0..16).map(move |j| (i, j))) {
            let mut costs = [0; COSTS];
            costs[i] = 1 << j;
            let bit = d * j + d - 1 - i;
            let words = match bit {
                0..64 => AddressWords { upper: 0, lower: 1 << bit },
                _ => AddressWords { upper: 1 << (bit - 64), lower: 0 },
            };
            assert_eq!(raw::address(d, costs).address, words, "d {d}: bit {j} of cost {i}");
            assert_eq!(raw::costs_of(d, words).costs, costs, "d {d}: bit {bit}");
        }
    }
}

/// A cost past d is refused wherever it stands.
#[test]
fn costs_past_d() {
    for d in 2..COSTS {
        for place in d..COSTS {
            let mut costs = [1; COSTS];
            costs[d..].fill(0);
            assert_eq!(raw::address(d, costs).refusal, 0);
            costs[place] = 1;
            assert_eq!(raw::address(d, costs).refusal, 7, "d {d}: cost {place}");
        }
    }
}

/// Whether the address is one of d costs, as costs_of and region see it on either side.
fn fits(d: usize, address: AddressWords) -> bool {
    let greatest = AddressWords { upper: u64::MAX, lower: u64::MAX };
    let refusals = [raw::costs_of(d, address).refusal, raw::region(d, address, address).refusal];
    assert_eq!(raw::region(d, AddressWords::default(), address).refusal, refusals[0], "d {d}, {address:?}");
    assert!(d == COSTS || raw::region(d, address, greatest).refusal == 7, "d {d}, {address:?}");
    assert!(refusals == [0, 0] || refusals == [7, 7], "d {d}, {address:?}: {refusals:?}");
    refusals == [0, 0]
}

/// For d up to 4 any upper word but 0 is too large, for d of 8 none is.
#[test]
fn greatest_addresses() {
    let lower = u64::MAX;
    for d in 2..=4 {
        assert!(fits(d, AddressWords { upper: 0, lower: lower >> (64 - 16 * d) }), "d {d}");
        assert!(d == 4 || !fits(d, AddressWords { upper: 0, lower: 1 << (16 * d) }), "d {d}");
        for upper in [1, 1 << 32, u64::MAX] {
            assert!(!fits(d, AddressWords { upper, lower: 0 }), "d {d}, upper word {upper}");
        }
    }
    for d in 5..COSTS {
        let bits = 16 * d - 64;
        assert!(fits(d, AddressWords { upper: (1 << bits) - 1, lower }), "d {d}");
        assert!(!fits(d, AddressWords { upper: 1 << bits, lower: 0 }), "d {d}");
    }
    assert!(fits(COSTS, AddressWords { upper: u64::MAX, lower }));
    assert_eq!(zorder::costs_of(COSTS, u128::MAX), Ok([u16::MAX; COSTS]));
}

fn region(d: usize, a: [u64; 2], b: [u64; 2]) -> Result<Region, Refusal> {
    let [a, b] = [a, b].map(|[upper, lower]| u128::from(AddressWords { upper, lower }));
    zorder::region(d, a, b)
}

/// Addresses that differ in one word only, or are ordered by the upper word against the lower.
#[test]
fn regions_across_the_words() {
    let whole = |side: u16| Region { near: [0; COSTS], far: [side - 1; COSTS], side: side.into() };
    assert_eq!(region(8, [5, 7], [6, 7]), Ok(whole(512)));
    assert_eq!(region(8, [0, u64::MAX], [1, 0]), Ok(whole(512)));
    assert_eq!(region(8, [1, 0], [0, u64::MAX]), Err(Refusal::BadArgument { place: None }));
    let near = [0, 0, 0, 0, 0, 256, 0, 256];
    assert_eq!(region(8, [5, 7], [5, 8]), Ok(Region { near, far: near.map(|cost| cost + 1), side: 2 }));
    assert_eq!(region(8, [5, 7], [5, 7]).map(|region| region.side), Ok(1));
    let far = padded([8191; 5]);
    assert_eq!(region(5, [0, 7], [1, 7]), Ok(Region { near: [0; COSTS], far, side: 8192 }));
    assert_eq!(region(5, [2, 7], [2, 6]), Err(Refusal::BadArgument { place: None }));
}
