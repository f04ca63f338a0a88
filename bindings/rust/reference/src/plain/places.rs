//! Nodes and entries by places of the rows.
use super::bytes::Head;
use super::order::side;

impl Head {
    /// Where the node at a level that holds the place ends.
    pub fn node_end(self, m: &[u8], level: u8, place: usize) -> usize {
        let after = &self.heights(m)[place + 1..];
        after.iter().position(|&height| height >= level).map_or(self.n, |ahead| place + 1 + ahead)
    }

    /// Where it starts.
    pub fn node_start(self, m: &[u8], level: u8, place: usize) -> usize {
        self.heights(m)[..=place].iter().rposition(|&height| height >= level).unwrap_or(0)
    }

    /// How many entries of a level start from s up to e.
    pub fn entries(self, m: &[u8], level: u8, s: usize, e: usize) -> usize {
        self.heights(m)[s..e].iter().filter(|&&height| height >= level).count()
    }

    pub fn side_between(self, m: &[u8], i: usize, j: usize) -> u32 {
        side(&self.costs_at(m, i), &self.costs_at(m, j))
    }

    pub fn place_of(self, m: &[u8], number: u16) -> Option<usize> {
        self.numbers(m, 0..self.n).position(|other| other == number)
    }
}
