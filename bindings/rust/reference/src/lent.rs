//! A buffer to lend, with cells on both sides that nobody may write.

/// Odd, so that lent bytes start at an odd address.
const MARGIN: usize = 63;

pub struct Lent<T> {
    cells: Vec<T>,
    filler: T,
}

impl<T: Copy + PartialEq> Lent<T> {
    /// A buffer of the filler, as the cells around it are.
    pub fn new(len: usize, filler: T) -> Self {
        Lent { cells: vec![filler; len + 2 * MARGIN], filler }
    }

    pub fn holding(content: &[T], filler: T) -> Self {
        let mut lent = Lent::new(content.len(), filler);
        lent.lend().copy_from_slice(content);
        lent
    }

    pub fn lend(&mut self) -> &mut [T] {
        let end = self.cells.len() - MARGIN;
        &mut self.cells[MARGIN..end]
    }

    pub fn held(&self) -> &[T] {
        &self.cells[MARGIN..self.cells.len() - MARGIN]
    }

    /// Whether the lent cells from a place on are as they were made.
    pub fn untouched_from(&self, place: usize) -> bool {
        self.held()[place..].iter().all(|cell| *cell == self.filler)
    }

    pub fn margins_kept(&self) -> bool {
        let (before, rest) = self.cells.split_at(MARGIN);
        let after = &rest[rest.len() - MARGIN..];
        before.iter().chain(after).all(|cell| *cell == self.filler)
    }
}
