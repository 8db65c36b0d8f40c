//! Deals in which the bands of issue life count: most of their goods are debt
//! whose life stands at the edge of a band, or in any of them.

use crate::bands::EDGES;
use crate::line::Line;
use crate::random::Random;

/// Sovereign, other issuers', bank and securitisation; the second and third have
/// most bands.
const DEBT: &[(u64, u64)] = &[(2, 2), (3, 3), (3, 4), (2, 5)];
/// Re-securitisation too, which is never eligible as collateral.
const LENT_DEBT: &[(u64, u64)] = &[(3, 2), (4, 3), (4, 4), (3, 5), (2, 6)];

/// The place of the type in terms and in collateral; its step and life follow.
pub fn place_of_type(letter: u8) -> Option<usize> {
    match letter {
        b'D' => Some(8),
        b'C' => Some(1),
        _ => None,
    }
}

/// Makes what is lent such debt, and four in five items of collateral; these mostly
/// at steps that are eligible.
pub fn make_debt(random: &mut Random, deal: &mut [Line]) {
    for line in deal {
        let Some(place) = place_of_type(line.letter) else {
            continue;
        };
        if line.letter == b'D' || random.percent(80) {
            line.fields[place] = random.weighted(match line.letter {
                b'C' => DEBT,
                _ => LENT_DEBT,
            });
            line.fields[place + 1] = match line.letter == b'C' && random.percent(60) {
                true => random.between(1, 3),
                false => random.between(0, 6),
            };
            line.fields[place + 2] = life(random);
        }
    }
}

fn life(random: &mut Random) -> u64 {
    match random.below(4) {
        0..=2 => random.pick(&EDGES),
        _ => random.between(1, 5400),
    }
}

#[cfg(test)]
mod tests {
    use super::*;
    use crate::deal::deal;
    use crate::sides::reference_refusal;

    #[test]
    fn every_line_is_accepted_and_most_lives_are_at_an_edge() {
        let (mut edges, mut lives) = (0, 0);
        for number in 0..1000 {
            let random = &mut Random::new(53, number);
            let mut deal = deal(random, number % 3 + 1);
            make_debt(random, &mut deal);
            for line in deal {
                assert_eq!(reference_refusal(line.letter, &line.fields), 0);
                if let Some(place) = place_of_type(line.letter) {
                    lives += 1;
                    edges += usize::from(EDGES.contains(&line.fields[place + 2]));
                }
            }
        }
        assert!((50..70).contains(&(edges * 100 / lives)));
    }
}
