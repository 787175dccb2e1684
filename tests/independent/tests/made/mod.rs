//! What is made at random, kept with what the faultless side says to it.

/// Most faults show early, so no more is made than is looked at.
pub struct Made<T, S, F: Fn(u64) -> (T, S)> {
    count: u64,
    make: F,
    made: Vec<(T, S)>,
}

impl<T, S: PartialEq, F: Fn(u64) -> (T, S)> Made<T, S, F> {
    /// Of the first so many seeds.
    pub fn new(count: u64, make: F) -> Made<T, S, F> {
        Made { count, make, made: Vec::new() }
    }

    /// How many of the first ones another side says something else to, up to a number that is enough.
    pub fn differ<P: Fn(&T) -> S>(&mut self, enough: usize, other: P) -> usize {
        let mut caught = 0;
        for n in 0..self.count {
            if caught == enough {
                break;
            }
            if n as usize == self.made.len() {
                self.made.push((self.make)(n));
            }
            let (input, said) = &self.made[n as usize];
            caught += (other(input) != *said) as usize;
        }
        caught
    }
}
