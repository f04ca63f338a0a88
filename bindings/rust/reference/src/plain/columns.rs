//! Moves cost by cost: a question to all of them takes eight at once.
use crate::{Costs, COSTS};

/// Entry j of each row of costs is move j's.
pub struct Columns<const N: usize>([[u16; N]; COSTS]);

impl<const N: usize> Columns<N> {
    /// All of the greatest costs.
    pub fn new() -> Self {
        Columns([[u16::MAX; N]; COSTS])
    }

    pub fn put(&mut self, column: usize, costs: &Costs) {
        self.0.iter_mut().zip(costs).for_each(|(row, &cost)| row[column] = cost);
    }

    pub fn fill(&mut self, costs: &Costs) {
        self.0.iter_mut().zip(costs).for_each(|(row, &cost)| row.fill(cost));
    }

    /// For each column 0 if it is nowhere above the limits in the first D costs.
    fn excess<const D: usize>(&self, limits: &Costs) -> [u16; N] {
        std::array::from_fn(|j| (0..D).fold(0, |excess, i| excess | self.0[i][j].saturating_sub(limits[i])))
    }

    /// How many these are: a sum too takes eight at once, a search for the first would not.
    fn fitting<const D: usize>(&self, limits: &Costs) -> u16 {
        self.excess::<D>(limits).iter().map(|&excess| u16::from(excess == 0)).sum()
    }

    /// Whether a column is nowhere above the limits, which past d nothing exceeds.
    pub fn some_fits(&self, d: usize, limits: &Costs) -> bool {
        if d <= 4 {
            self.fitting::<4>(limits) > 0
        } else {
            self.fitting::<COSTS>(limits) > 0
        }
    }

    /// The first column that is.
    pub fn first_fitting(&self, limits: &Costs) -> Option<usize> {
        self.excess::<COSTS>(limits).iter().position(|&excess| excess == 0)
    }
}
