//! A small generator of random numbers, splitmix64: equal seeds give equal sequences on every machine.

/// The generator.
pub struct Random {
    state: u64,
}

impl Random {
    /// The generator that a seed begins.
    pub fn new(seed: u64) -> Random {
        Random { state: seed }
    }

    /// The next 64 bits.
    pub fn word(&mut self) -> u64 {
        self.state = self.state.wrapping_add(0x9E37_79B9_7F4A_7C15);
        let mut z = self.state;
        z = (z ^ (z >> 30)).wrapping_mul(0xBF58_476D_1CE4_E5B9);
        z = (z ^ (z >> 27)).wrapping_mul(0x94D0_49BB_1331_11EB);
        z ^ (z >> 31)
    }

    /// 32 random bits.
    pub fn half(&mut self) -> u32 {
        (self.word() >> 32) as u32
    }

    /// A number below n, or 0 where n is 0.
    pub fn below(&mut self, n: u64) -> u64 {
        ((u128::from(self.word()) * u128::from(n)) >> 64) as u64
    }

    /// A number from low to high, both included.
    pub fn between(&mut self, low: i64, high: i64) -> i64 {
        low + self.below((high - low + 1) as u64) as i64
    }

    /// True once in n times.
    pub fn one_in(&mut self, n: u64) -> bool {
        self.below(n) == 0
    }

    /// One of the values.
    pub fn pick<T: Copy>(&mut self, values: &[T]) -> T {
        values[self.below(values.len() as u64) as usize]
    }

    /// A number below the count of weights, each as often as its weight says.
    pub fn weighted(&mut self, weights: &[u64]) -> usize {
        let mut rest = self.below(weights.iter().sum());
        weights
            .iter()
            .position(|&weight| {
                let hit = rest < weight;
                rest = rest.wrapping_sub(weight);
                hit
            })
            .unwrap_or(0)
    }

    /// Bytes of one of three kinds: all values, few values, zero.
    pub fn bytes(&mut self, len: usize) -> Vec<u8> {
        let mask = self.pick(&[0xFF, 0xFF, 0x03, 0x03, 0x00]);
        (0..len).map(|_| self.word() as u8 & mask).collect()
    }
}

#[cfg(test)]
mod tests {
    use super::Random;

    #[test]
    fn numbers_stay_in_range_and_reach_both_ends() {
        let mut random = Random::new(1);
        let drawn: Vec<i64> = (0..1_000).map(|_| random.between(-3, 3)).collect();
        assert_eq!(drawn.iter().min(), Some(&-3));
        assert_eq!(drawn.iter().max(), Some(&3));
    }

    #[test]
    fn weights_say_how_often() {
        let mut random = Random::new(1);
        let mut counts = [0; 3];
        (0..4_000).for_each(|_| counts[random.weighted(&[3, 0, 1])] += 1);
        assert_eq!(counts[1], 0);
        assert!((2_800..3_200).contains(&counts[0]));
    }
}
