//! A small random generator. Each case has one of its own, made from the run's seed and the case's
//! number, so that any case can be made again alone.

/// Adds a fixed odd number to the state and mixes its bits (splitmix64).
pub struct Random {
    state: u64,
}

/// A name, a weight, and a thing that is chosen by it.
pub type Weighted<T> = (&'static str, usize, T);

const STEP: u64 = 0x9E37_79B9_7F4A_7C15;

impl Random {
    /// The generator of one case.
    pub fn of_case(seed: u64, index: u64) -> Random {
        let mut start = Random { state: seed };
        Random {
            state: start.next() ^ index.wrapping_mul(STEP),
        }
    }

    pub fn next(&mut self) -> u64 {
        self.state = self.state.wrapping_add(STEP);
        let mut z = self.state;
        z = (z ^ (z >> 30)).wrapping_mul(0xBF58_476D_1CE4_E5B9);
        z = (z ^ (z >> 27)).wrapping_mul(0x94D0_49BB_1331_11EB);
        z ^ (z >> 31)
    }

    /// A number below n, which is not 0.
    pub fn below(&mut self, n: usize) -> usize {
        ((u128::from(self.next()) * n as u128) >> 64) as usize
    }

    /// A number from low to high, both possible.
    pub fn between(&mut self, low: usize, high: usize) -> usize {
        low + self.below(high - low + 1)
    }

    /// True so many times in a hundred.
    pub fn percent(&mut self, chance: usize) -> bool {
        self.below(100) < chance
    }

    pub fn pick<T: Copy>(&mut self, from: &[T]) -> T {
        from[self.below(from.len())]
    }

    /// One of a table's things by its weight, with its name.
    pub fn by_weight<T: Copy>(&mut self, table: &[Weighted<T>]) -> (&'static str, T) {
        let mut at = self.below(table.iter().map(|(_, weight, _)| weight).sum());
        for &(name, weight, thing) in table {
            if at < weight {
                return (name, thing);
            }
            at -= weight;
        }
        unreachable!("the weights add up")
    }

    pub fn byte(&mut self) -> u8 {
        self.next() as u8
    }

    pub fn bytes(&mut self, length: usize) -> Vec<u8> {
        (0..length).map(|_| self.byte()).collect()
    }

    pub fn word(&mut self) -> u16 {
        self.next() as u16
    }

    pub fn words(&mut self, length: usize) -> Vec<u16> {
        (0..length).map(|_| self.word()).collect()
    }
}
