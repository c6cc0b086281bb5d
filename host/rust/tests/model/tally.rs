//! How often each number was the answer, so that a random test can show that it met every case.

use std::fmt::Debug;

pub struct Tally([u64; 16]);

impl Tally {
    pub fn of(numbers: impl IntoIterator<Item = u64>) -> Tally {
        let mut counts = [0; 16];
        numbers.into_iter().for_each(|number| counts[number as usize] += 1);
        Tally(counts)
    }

    pub fn assert_each_at_least(&self, times: u64, numbers: impl IntoIterator<Item = usize> + Clone + Debug) {
        let often = numbers.clone().into_iter().all(|number| self.0[number] >= times);
        assert!(often, "numbers {:?} not met {} times each, but {:?}", numbers, times, self.0);
    }
}
