//! Random numbers that a seed repeats: splitmix64.

/// A source of random numbers.
pub struct Random {
    state: u64,
}

const STEP: u64 = 0x9E37_79B9_7F4A_7C15;

/// Takes each number to a number of its own, without any pattern one could see.
fn scatter(number: u64) -> u64 {
    let mixed = (number ^ (number >> 30)).wrapping_mul(0xBF58_476D_1CE4_E5B9);
    let mixed = (mixed ^ (mixed >> 27)).wrapping_mul(0x94D0_49BB_1331_11EB);
    mixed ^ (mixed >> 31)
}

impl Random {
    /// The source for one call: any call of a run can be made again by itself.
    pub fn for_call(seed: u64, series: &str, call: u64) -> Random {
        let series = series.bytes().fold(0, |sum, byte| scatter(sum ^ u64::from(byte)));
        Random { state: scatter(seed ^ scatter(series ^ scatter(call))) }
    }

    /// Any number.
    pub fn number(&mut self) -> usize {
        self.state = self.state.wrapping_add(STEP);
        scatter(self.state) as usize
    }

    /// A number below `end`, which is not 0.
    pub fn below(&mut self, end: usize) -> usize {
        self.number() % end
    }

    /// A number from `least` to `most`.
    pub fn within(&mut self, least: usize, most: usize) -> usize {
        least + self.below(most - least + 1)
    }

    /// True so many times in a hundred.
    pub fn chance(&mut self, percent: usize) -> bool {
        self.below(100) < percent
    }

    /// One of the given things.
    pub fn pick<T: Copy>(&mut self, things: &[T]) -> T {
        things[self.below(things.len())]
    }

    /// The same things in another order.
    pub fn shuffle<T>(&mut self, things: &mut [T]) {
        for last in (1..things.len()).rev() {
            let other = self.below(last + 1);
            things.swap(last, other);
        }
    }
}
