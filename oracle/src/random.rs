//! A small fixed generator (splitmix64), so that the same seed gives the same
//! cases on every machine.

pub struct Random {
    state: u64,
}

impl Random {
    pub fn new(seed: u64) -> Random {
        Random { state: seed }
    }

    /// One of the generators of a seed, which has one for each number.
    pub fn numbered(seed: u64, number: u64) -> Random {
        let mixed = Random::new(seed).next();
        Random::new(Random::new(mixed ^ number).next())
    }

    fn next(&mut self) -> u64 {
        self.state = self.state.wrapping_add(0x9E37_79B9_7F4A_7C15);
        let mut mixed = self.state;
        mixed = (mixed ^ (mixed >> 30)).wrapping_mul(0xBF58_476D_1CE4_E5B9);
        mixed = (mixed ^ (mixed >> 27)).wrapping_mul(0x94D0_49BB_1331_11EB);
        mixed ^ (mixed >> 31)
    }

    /// A number from low to high, both included; low is not above high.
    pub fn between(&mut self, low: u32, high: u32) -> u32 {
        let size = u64::from(high - low) + 1;
        low + (self.next() % size) as u32
    }

    /// A number below the given one, which is not 0.
    pub fn below(&mut self, end: usize) -> usize {
        (self.next() % end as u64) as usize
    }

    /// True one time in so many.
    pub fn one_in(&mut self, times: usize) -> bool {
        self.below(times) == 0
    }

    pub fn pick<T: Copy>(&mut self, items: &[T]) -> T {
        items[self.below(items.len())]
    }
}

#[cfg(test)]
mod tests {
    use super::*;

    #[test]
    fn the_generator_is_splitmix64() {
        let mut random = Random::new(1_234_567);
        assert_eq!(random.next(), 6_457_827_717_110_365_317);
        assert_eq!(random.next(), 3_203_168_211_198_807_973);
    }

    #[test]
    fn both_ends_are_drawn() {
        let mut random = Random::new(1);
        let drawn: Vec<u32> = (0..100).map(|_| random.between(4, 6)).collect();
        assert!((4..=6).all(|number| drawn.contains(&number)));
        assert!(drawn.iter().all(|number| (4..=6).contains(number)));
        random.between(0, u32::MAX);
    }
}
