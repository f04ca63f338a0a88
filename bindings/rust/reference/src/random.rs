//! Numbers that look random and are the same on every run, and boards made of them.
use crate::{Costs, Given, BLOCKS, COSTS};

/// Steele, Lea and Flood's SplitMix64.
pub struct Random(u64);

impl Random {
    pub fn new(seed: u64) -> Self {
        Random(seed)
    }

    pub fn word(&mut self) -> u64 {
        self.0 = self.0.wrapping_add(0x9E37_79B9_7F4A_7C15);
        let z = (self.0 ^ self.0 >> 30).wrapping_mul(0xBF58_476D_1CE4_E5B9);
        let z = (z ^ z >> 27).wrapping_mul(0x94D0_49BB_1331_11EB);
        z ^ z >> 31
    }

    pub fn below(&mut self, n: usize) -> usize {
        (self.word() % n as u64) as usize
    }

    pub fn percent(&mut self, n: usize) -> bool {
        self.below(100) < n
    }

    pub fn one_of<T: Copy>(&mut self, choices: &[T]) -> T {
        choices[self.below(choices.len())]
    }

    pub fn fill(&mut self, bytes: &mut [u8]) {
        for byte in bytes {
            *byte = self.word() as u8;
        }
    }

    pub fn block(&mut self) -> u16 {
        self.below(BLOCKS) as u16
    }

    /// n different numbers below c.
    pub fn numbers(&mut self, c: usize, n: usize) -> Vec<u16> {
        let mut numbers: Vec<u16> = (0..c as u16).collect();
        for i in 0..n {
            let j = i + self.below(c - i);
            numbers.swap(i, j);
        }
        numbers.truncate(n);
        numbers
    }
}

/// How the costs of a board lie to each other.
#[derive(Clone, Copy, Debug, PartialEq, Eq)]
pub enum Shape {
    Uniform,
    Correlated,
    AntiCorrelated,
    AllListed,
}

/// Costs below `span`, 1 to 65,536, for the number of a board of size c. On an all-listed board each number has costs that
/// no other number's dominate, if the span is at least c.
pub fn costs(random: &mut Random, shape: Shape, d: usize, span: usize, number: usize, c: usize) -> Costs {
    let mut costs = [0; COSTS];
    let base = random.below(span);
    let noise = span / 16 + 1;
    for cost in &mut costs[..d] {
        *cost = match shape {
            Shape::Uniform | Shape::AllListed => random.below(span),
            Shape::Correlated | Shape::AntiCorrelated => (base + random.below(noise)).min(span - 1),
        } as u16;
    }
    match shape {
        Shape::AntiCorrelated => costs[0] = (span - 1 - base) as u16,
        Shape::AllListed => {
            let along = number % c * (span / c);
            costs[0] = along as u16;
            costs[1] = (span - 1 - along) as u16;
        }
        _ => {}
    }
    costs
}

/// n moves of a board of size c, in any blocks.
pub fn moves(random: &mut Random, shape: Shape, d: usize, span: usize, c: usize, n: usize) -> Vec<Given> {
    let numbers = random.numbers(c, n);
    let row = |number: u16| {
        let costs = costs(random, shape, d, span, usize::from(number), c);
        Given { number, block: random.block(), costs }
    };
    numbers.into_iter().map(row).collect()
}
