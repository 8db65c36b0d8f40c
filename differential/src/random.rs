//! Numbers that look random and come from a seed alone: splitmix64.

pub struct Random {
    state: u64,
}

impl Random {
    /// Another sequence for every seed and for every stream of a seed.
    pub fn new(seed: u64, stream: u64) -> Self {
        let mut first = Random { state: seed };
        let state = first.number() ^ stream.wrapping_mul(0xD134_2543_DE82_EF95);
        let mut second = Random { state };
        let state = second.number();
        Random { state }
    }

    /// Numbers beside this sequence, which goes on as if none were drawn.
    pub fn aside(&self) -> Self {
        Random::new(self.state, 1)
    }

    pub fn number(&mut self) -> u64 {
        self.state = self.state.wrapping_add(0x9E37_79B9_7F4A_7C15);
        let mut z = self.state;
        z = (z ^ (z >> 30)).wrapping_mul(0xBF58_476D_1CE4_E5B9);
        z = (z ^ (z >> 27)).wrapping_mul(0x94D0_49BB_1331_11EB);
        z ^ (z >> 31)
    }

    /// Below `bound`, which is not 0.
    pub fn below(&mut self, bound: u64) -> u64 {
        ((u128::from(self.number()) * u128::from(bound)) >> 64) as u64
    }

    /// From `low` to `high`, both among them.
    pub fn between(&mut self, low: u64, high: u64) -> u64 {
        low + self.below(high - low + 1)
    }

    /// An index below `length`, which is not 0.
    pub fn index(&mut self, length: usize) -> usize {
        self.below(length as u64) as usize
    }

    /// True in so many cases of a hundred.
    pub fn percent(&mut self, cases: u64) -> bool {
        self.below(100) < cases
    }

    pub fn pick<T: Copy>(&mut self, choices: &[T]) -> T {
        choices[self.index(choices.len())]
    }

    /// One of the choices, each as often as its weight says.
    pub fn weighted<T: Copy>(&mut self, choices: &[(u64, T)]) -> T {
        let all = choices.iter().map(|(weight, _)| weight).sum();
        let mut point = self.below(all);
        for (weight, choice) in choices {
            if point < *weight {
                return *choice;
            }
            point -= weight;
        }
        unreachable!("the point lies below the sum of the weights")
    }
}

#[cfg(test)]
mod tests {
    use super::Random;

    #[test]
    fn splitmix64_of_its_authors() {
        let mut random = Random { state: 1234567 };
        assert_eq!(random.number(), 6457827717110365317);
        assert_eq!(random.number(), 3203168211198807973);
    }

    #[test]
    fn streams_differ() {
        let mut numbers: Vec<u64> = (0..10)
            .flat_map(|seed| (0..10).map(move |stream| Random::new(seed, stream).number()))
            .collect();
        numbers.sort();
        numbers.dedup();
        assert_eq!(numbers.len(), 100);
    }

    #[test]
    fn what_is_drawn_aside_leaves_the_sequence() {
        let (mut one, mut other) = (Random::new(1, 1), Random::new(1, 1));
        for _ in 0..100 {
            let aside = one.aside().number();
            let number = one.number();
            assert_eq!(number, other.number());
            assert_ne!(aside, number);
        }
    }

    #[test]
    fn bounds() {
        let mut random = Random::new(1, 1);
        for _ in 0..1000 {
            assert!(random.below(3) < 3);
            assert!((5..=7).contains(&random.between(5, 7)));
            assert!(random.between(0, u64::MAX - 1) < u64::MAX);
            assert_eq!(random.weighted(&[(0, 'a'), (1, 'b'), (0, 'c')]), 'b');
        }
    }
}
