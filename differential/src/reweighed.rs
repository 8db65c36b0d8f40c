//! Deals in which the weights of 2023 count: most of their parties are such as
//! these change, or weigh as much under one of the tables.

use crate::heading::{CLASS, SOVEREIGN_STEP, STEP};
use crate::line::Line;
use crate::random::Random;
use crate::sovereign::right_steps;

/// Class and step.
const COUNTERPARTIES: &[[u64; 2]] = &[[2, 0], [2, 2], [3, 3], [2, 3], [1, 4], [1, 6], [3, 6]];
const PROVIDERS: &[[u64; 2]] = &[[2, 0], [2, 2], [3, 3], [2, 3], [3, 2], [1, 4], [2, 4]];

/// Those whose order of cover changes, under one that weighs more than any of them.
const HEAVIEST: &[[u64; 2]] = &[[1, 6], [3, 6]];
const REORDERED: &[[u64; 2]] = &[[1, 4], [3, 3], [2, 3], [2, 2]];

/// Makes four in five parties of a deal such ones; a sovereign has none above it.
pub fn reweigh(random: &mut Random, deal: &mut [Line]) {
    let [counterparties, providers] = match random.percent(20) {
        true => [HEAVIEST, REORDERED],
        false => [COUNTERPARTIES, PROVIDERS],
    };
    for line in deal {
        let parties = match line.letter {
            b'D' => counterparties,
            b'G' | b'S' => providers,
            _ => continue,
        };
        if random.percent(80) {
            let [class, step] = random.pick(parties);
            line.fields[CLASS] = class;
            line.fields[STEP] = step;
            let sovereign = &mut line.fields[SOVEREIGN_STEP];
            *sovereign = (*sovereign).min(*right_steps(class).end());
        }
    }
}

#[cfg(test)]
mod tests {
    use super::*;
    use crate::deal::deal;
    use crate::sides::reference_refusal;

    #[test]
    fn every_party_is_accepted_and_most_are_such() {
        let (mut such, mut all) = (0, 0);
        for number in 0..1000 {
            let random = &mut Random::new(59, number);
            let mut deal = deal(random, number % 3 + 1);
            reweigh(random, &mut deal);
            for line in deal.iter().filter(|line| line.letter != b'C') {
                assert_eq!(reference_refusal(line.letter, &line.fields), 0);
                let party = [line.fields[CLASS], line.fields[STEP]];
                all += 1;
                such += usize::from(COUNTERPARTIES.contains(&party) || PROVIDERS.contains(&party));
            }
        }
        assert!(such * 100 / all >= 80);
    }
}
