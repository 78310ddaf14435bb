//! A small seeded source of random numbers (splitmix64).

#[derive(Clone, Debug)]
pub struct Random {
    state: u64,
}

const GOLDEN: u64 = 0x9E37_79B9_7F4A_7C15;

impl Random {
    pub fn new(seed: u64) -> Random {
        Random { state: seed }
    }

    /// Each file has a source of its own, so that one file can be made again
    /// without those before it.
    pub fn for_file(seed: u64, number: u64) -> Random {
        let of_seed = Random::new(seed).number();
        Random::new(of_seed ^ Random::new(number).number())
    }

    pub fn number(&mut self) -> u64 {
        self.state = self.state.wrapping_add(GOLDEN);
        let mut mixed = self.state;
        mixed = (mixed ^ (mixed >> 30)).wrapping_mul(0xBF58_476D_1CE4_E5B9);
        mixed = (mixed ^ (mixed >> 27)).wrapping_mul(0x94D0_49BB_1331_11EB);
        mixed ^ (mixed >> 31)
    }

    /// A number below the bound, which is above 0.
    pub fn below(&mut self, bound: u64) -> u64 {
        ((u128::from(self.number()) * u128::from(bound)) >> 64) as u64
    }

    /// A number from the lowest to the highest, both included.
    pub fn between(&mut self, lowest: u64, highest: u64) -> u64 {
        lowest + self.below(highest - lowest + 1)
    }

    /// A number up to the largest, which is above 0, but not this one.
    pub fn other(&mut self, than: u64, largest: u64) -> u64 {
        (than + self.between(1, largest)) % (largest + 1)
    }

    pub fn percent(&mut self, chance: u64) -> bool {
        self.below(100) < chance
    }

    /// One of the things, of which there is at least one.
    pub fn pick<T: Copy>(&mut self, things: &[T]) -> T {
        things[self.below(things.len() as u64) as usize]
    }

    pub fn byte(&mut self) -> u8 {
        self.number() as u8
    }

    pub fn bytes<const COUNT: usize>(&mut self) -> [u8; COUNT] {
        let mut bytes = [0; COUNT];
        bytes.iter_mut().for_each(|byte| *byte = self.byte());
        bytes
    }

    /// The place of one of the weights, each as likely as it is heavy.
    pub fn weighted(&mut self, weights: &[u64]) -> usize {
        let mut left = self.below(weights.iter().sum());
        for (place, &weight) in weights.iter().enumerate() {
            if left < weight {
                return place;
            }
            left -= weight;
        }
        weights.len() - 1
    }
}

#[cfg(test)]
mod tests {
    use super::*;

    #[test]
    fn the_known_first_numbers_of_splitmix64() {
        let mut random = Random::new(1_234_567);
        assert_eq!(random.number(), 6_457_827_717_110_365_317);
        assert_eq!(random.number(), 3_203_168_211_198_807_973);
    }

    #[test]
    fn bounds_hold() {
        let mut random = Random::new(3);
        let mut seen = [false; 5];
        for _ in 0..1_000 {
            let number = random.between(10, 14);
            seen[(number - 10) as usize] = true;
            assert!(random.other(number, 14) != number);
            assert!(random.weighted(&[0, 3, 0]) == 1);
            assert!(random.below(1) == 0);
        }
        assert_eq!(seen, [true; 5]);
    }

    #[test]
    fn files_differ() {
        let first = |seed, number| Random::for_file(seed, number).number();
        assert_eq!(first(1, 2), first(1, 2));
        assert_ne!(first(1, 2), first(1, 3));
        assert_ne!(first(1, 2), first(2, 2));
    }
}
