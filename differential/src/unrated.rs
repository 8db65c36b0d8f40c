//! Deals in which the sovereign's weight counts: most of their parties are
//! unrated banks and corporates.

use crate::heading::{CLASS, SOVEREIGN_STEP, STEP};
use crate::line::Line;
use crate::random::Random;
use crate::sovereign::right_steps;

/// Classes of unrated parties that have a floor.
const COUNTERPARTIES: &[u64] = &[2, 3];
const PROVIDERS: &[u64] = &[2];

/// Makes three in five counterparties and every second provider unrated, with any
/// sovereign.
pub fn unrate(random: &mut Random, deal: &mut [Line]) {
    for line in deal {
        let (classes, cases) = match line.letter {
            b'D' => (COUNTERPARTIES, 60),
            b'G' | b'S' => (PROVIDERS, 50),
            _ => continue,
        };
        if random.percent(cases) {
            let class = random.pick(classes);
            let steps = right_steps(class);
            line.fields[CLASS] = class;
            line.fields[STEP] = 0;
            line.fields[SOVEREIGN_STEP] = random.between(*steps.start(), *steps.end());
        }
    }
}

#[cfg(test)]
mod tests {
    use super::*;
    use crate::deal::deal;
    use crate::sides::reference_refusal;

    #[test]
    fn every_party_is_accepted_and_most_are_unrated() {
        let (mut unrated, mut parties) = (0, 0);
        for number in 0..1000 {
            let random = &mut Random::new(31, number);
            let mut deal = deal(random, number % 3 + 1);
            unrate(random, &mut deal);
            for line in deal.iter().filter(|line| line.letter != b'C') {
                assert_eq!(reference_refusal(line.letter, &line.fields), 0);
                parties += 1;
                unrated += usize::from(line.fields[STEP] == 0);
            }
        }
        assert!((50..70).contains(&(unrated * 100 / parties)));
    }
}
