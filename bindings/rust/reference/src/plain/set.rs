//! A set of numbers below 4,096.

#[derive(Clone, Copy)]
pub struct Set([u64; 64]);

impl Set {
    pub fn empty() -> Set {
        Set([0; 64])
    }

    pub fn has(&self, number: u16) -> bool {
        self.0[usize::from(number / 64)] >> (number % 64) & 1 == 1
    }

    pub fn put(&mut self, number: u16) {
        self.0[usize::from(number / 64)] |= 1 << (number % 64);
    }

    pub fn len(&self) -> usize {
        self.0.iter().map(|word| word.count_ones() as usize).sum()
    }
}

impl FromIterator<u16> for Set {
    fn from_iter<T: IntoIterator<Item = u16>>(numbers: T) -> Set {
        let mut set = Set::empty();
        numbers.into_iter().for_each(|number| set.put(number));
        set
    }
}
