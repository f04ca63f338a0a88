//! The fields of the lent memory, by the table of docs/DECISIONS.md.
use crate::layout::FORMAT;
use crate::{Costs, Move, COSTS};
use std::ops::Range;

/// C, d and the number of moves; and which costs are in use, by bits.
#[derive(Clone, Copy)]
pub struct Head {
    pub c: u16,
    pub d: usize,
    pub n: usize,
    pub used: Costs,
}

/// Every bit of the costs that are chosen, none of the others.
pub fn all_bits(chosen: impl Fn(usize) -> bool) -> Costs {
    std::array::from_fn(|i| if chosen(i) { u16::MAX } else { 0 })
}

/// The costs where they are chosen, and what nothing exceeds where they are not.
pub fn limits(chosen: &Costs, costs: &Costs) -> Costs {
    std::array::from_fn(|i| costs[i] | !chosen[i])
}

fn word(m: &[u8], at: usize) -> u16 {
    let bytes = &m[at..at + 2];
    u16::from_le_bytes([bytes[0], bytes[1]])
}

fn set_word(m: &mut [u8], at: usize, value: u16) {
    m[at..at + 2].copy_from_slice(&value.to_le_bytes());
}

impl Head {
    pub fn new(c: u16, d: usize, n: usize) -> Head {
        Head { c, d, n, used: all_bits(|i| i < d) }
    }

    pub fn read(m: &[u8]) -> Head {
        Head::new(word(m, 0), m[2].into(), word(m, 4).into())
    }

    pub fn has_format(m: &[u8]) -> bool {
        m[3] == FORMAT
    }

    pub fn write(self, m: &mut [u8]) {
        set_word(m, 0, self.c);
        m[2] = self.d as u8;
        m[3] = FORMAT;
        set_word(m, 4, self.n as u16);
    }

    pub fn with_moves(self, n: usize) -> Head {
        Head { n, ..self }
    }

    /// Where a field starts that has so many bytes for each number before it.
    fn field(self, bytes: usize) -> usize {
        16 + bytes * usize::from(self.c)
    }

    pub fn number(self, m: &[u8], place: usize) -> u16 {
        word(m, 16 + 2 * place)
    }

    /// The numbers at some places.
    pub fn numbers(self, m: &[u8], places: Range<usize>) -> impl Iterator<Item = u16> + '_ {
        let bytes = m[16 + 2 * places.start..16 + 2 * places.end].chunks_exact(2);
        bytes.map(|bytes| u16::from_le_bytes([bytes[0], bytes[1]]))
    }

    pub fn heights(self, m: &[u8]) -> &[u8] {
        &m[self.field(2)..][..self.n]
    }

    pub fn height(self, m: &[u8], place: usize) -> u8 {
        m[self.field(2) + place]
    }

    pub fn set_height(self, m: &mut [u8], place: usize, height: u8) {
        m[self.field(2) + place] = height;
    }

    pub fn set_row(self, m: &mut [u8], place: usize, number: u16, height: u8) {
        set_word(m, 16 + 2 * place, number);
        self.set_height(m, place, height);
    }

    /// The rows of some places moved, the first of them to another place.
    pub fn move_rows(self, m: &mut [u8], rows: Range<usize>, to: usize) {
        let heights = self.field(2);
        m.copy_within(16 + 2 * rows.start..16 + 2 * rows.end, 16 + 2 * to);
        m.copy_within(heights + rows.start..heights + rows.end, heights + to);
    }

    pub fn listed(self, m: &[u8], number: u16) -> bool {
        m[self.field(3) + usize::from(number)] == 1
    }

    /// The listed moves at some places: where each stands, and its number.
    pub fn listed_among(self, m: &[u8], places: Range<usize>) -> impl Iterator<Item = (usize, u16)> + '_ {
        places.clone().zip(self.numbers(m, places)).filter(move |&(_, number)| self.listed(m, number))
    }

    pub fn set_listed(self, m: &mut [u8], number: u16, listed: bool) {
        m[self.field(3) + usize::from(number)] = listed.into();
    }

    pub fn block(self, m: &[u8], number: u16) -> u8 {
        m[self.field(4) + usize::from(number)]
    }

    pub fn set_block(self, m: &mut [u8], number: u16, block: u16) {
        m[self.field(4) + usize::from(number)] = block as u8;
    }

    /// All costs of a row as they are stored: those past d are any.
    pub fn stored(self, m: &[u8], number: u16) -> Costs {
        let at = self.field(5) + 16 * usize::from(number);
        let bytes: [u8; 2 * COSTS] = m[at..at + 2 * COSTS].try_into().expect("as many bytes");
        std::array::from_fn(|i| u16::from_le_bytes([bytes[2 * i], bytes[2 * i + 1]]))
    }

    /// Those past d zero: two rows may then be compared on all their costs.
    pub fn costs(self, m: &[u8], number: u16) -> Costs {
        let stored = self.stored(m, number);
        std::array::from_fn(|i| stored[i] & self.used[i])
    }

    pub fn set_costs(self, m: &mut [u8], number: u16, costs: Costs) {
        let at = self.field(5) + 16 * usize::from(number);
        for (i, &cost) in costs.iter().enumerate() {
            set_word(m, at + 2 * i, cost);
        }
    }

    pub fn costs_at(self, m: &[u8], place: usize) -> Costs {
        self.costs(m, self.number(m, place))
    }

    /// What a move that stands before this one and hides it is nowhere above.
    pub fn limits(self, m: &[u8], number: u16) -> Costs {
        limits(&self.used, &self.stored(m, number))
    }

    pub fn move_at(self, m: &[u8], place: usize) -> Move {
        let number = self.number(m, place);
        Move { number, costs: self.costs(m, number) }
    }

    pub fn work(self, m: &[u8], i: usize) -> u16 {
        word(m, self.field(21) + 2 * i)
    }

    pub fn set_work(self, m: &mut [u8], i: usize, number: u16) {
        set_word(m, self.field(21) + 2 * i, number);
    }
}
