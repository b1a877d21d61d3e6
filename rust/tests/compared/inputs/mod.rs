//! Random inputs: books and listings, good and damaged.

pub mod books;
pub mod damage;
pub mod listings;
pub mod random;

use random::Random;

/// A slice inside a longer one, so that what lies outside can be watched, or mislead whoever reads it.
#[derive(Clone)]
pub struct Inside<T> {
    pub whole: Vec<T>,
    from: usize,
    to: usize,
}

impl<T: Clone> Inside<T> {
    /// Puts random items around a slice.
    pub fn new(slice: &[T], random: &mut Random, item: impl Fn(&mut Random) -> T) -> Inside<T> {
        let mut whole: Vec<T> = (0..random.below(9)).map(|_| item(random)).collect();
        let from = whole.len();
        whole.extend_from_slice(slice);
        let to = whole.len();
        whole.extend((0..random.below(9)).map(|_| item(random)));
        Inside { whole, from, to }
    }

    pub fn slice(&self) -> &[T] {
        &self.whole[self.from..self.to]
    }

    pub fn lent(&mut self) -> &mut [T] {
        &mut self.whole[self.from..self.to]
    }
}
