//! Deals with swaps among their guarantees, and such in which the cut of swaps
//! counts: amounts beside the deal's, other currencies, mismatched terms.

use crate::heading::{CLASS, CURRENCY, SOVEREIGN_STEP, STEP};
use crate::held::LETTERS;
use crate::line::Line;
use crate::random::Random;
use crate::values::AMOUNT_LIMIT;

/// Place of the amount in terms and in items, of the term in terms, of both terms
/// and of the conditions in items.
const AMOUNT: usize = 0;
const TERM: usize = 7;
const RESIDUAL_TERM: usize = 5;
const ORIGINAL_TERM: usize = 6;
const CONDITIONS: std::ops::Range<usize> = 7..10;

/// So many items are a full list.
const FULL: usize = 16;

/// Which items of a list are swaps.
#[derive(Clone, Copy)]
enum Among {
    Guarantees,
    Swaps,
    /// The one behind a full list is of the other letter.
    GuaranteesThenSwaps,
    SwapsThenGuarantees,
    Both,
}

const AMONG: &[(u64, Among)] = &[
    (15, Among::Guarantees),
    (10, Among::Swaps),
    (10, Among::GuaranteesThenSwaps),
    (10, Among::SwapsThenGuarantees),
    (55, Among::Both),
];

/// Makes swaps of some guarantees of a deal, with either entry of their condition.
pub fn swap_some(random: &mut Random, deal: &mut [Line]) {
    let among = random.weighted(AMONG);
    let guarantees = deal.iter_mut().filter(|line| line.letter == b'G');
    for (place, line) in guarantees.enumerate() {
        let swapped = match among {
            Among::Guarantees => false,
            Among::Swaps => true,
            Among::GuaranteesThenSwaps => place >= FULL,
            Among::SwapsThenGuarantees => place < FULL,
            Among::Both => random.percent(50),
        };
        if swapped {
            line.letter = b'S';
            line.fields.push(random.below(2));
        }
    }
}

/// Amounts that a cut makes 0 or 1, and the largest.
pub const AMOUNTS: [u64; 4] = [0, 1, 2, AMOUNT_LIMIT];

/// Class and step of those that weigh most, and of those that weigh least; no
/// sovereign counts for either. Some of the second weigh the same.
pub const COUNTERPARTIES: &[[u64; 2]] = &[[1, 4], [1, 6], [2, 4], [2, 6], [3, 4], [3, 6], [4, 0]];
pub const PROVIDERS: &[[u64; 2]] = &[[1, 1], [1, 2], [1, 3], [2, 1], [2, 3], [3, 1], [3, 2]];

/// Makes a deal such a one.
pub fn tell_swaps(random: &mut Random, deal: &mut [Line]) {
    let Some((opening, items)) = deal.split_first_mut() else {
        return;
    };
    put_party(random, opening, COUNTERPARTIES);
    if random.percent(30) {
        opening.fields[AMOUNT] = match random.percent(50) {
            true => random.pick(&AMOUNTS),
            false => random.between(3, 200),
        };
    }
    for item in items
        .iter_mut()
        .filter(|line| LETTERS.contains(&line.letter))
    {
        put_party(random, item, PROVIDERS);
        item.fields[CONDITIONS].fill(1);
        item.fields[AMOUNT] = amount(random, opening.fields[AMOUNT], item.fields[AMOUNT]);
        put_term(random, item, opening.fields[TERM]);
        if random.percent(40) {
            item.fields[CURRENCY] = random.between(1, 999);
        }
    }
}

pub fn put_party(random: &mut Random, line: &mut Line, parties: &[[u64; 2]]) {
    let [class, step] = random.pick(parties);
    line.fields[CLASS] = class;
    line.fields[STEP] = step;
    line.fields[SOVEREIGN_STEP] = 0;
}

/// Below, at or above the deal's, or as it was.
fn amount(random: &mut Random, of_deal: u64, before: u64) -> u64 {
    let amount = match random.below(10) {
        0 | 1 => of_deal,
        2 => of_deal + 1,
        3 => of_deal.saturating_sub(1),
        4 => random.pick(&AMOUNTS),
        5 => random.between(of_deal, AMOUNT_LIMIT),
        6 | 7 => random.between(of_deal / 4, of_deal * 2),
        _ => before,
    };
    amount.min(AMOUNT_LIMIT)
}

/// As long as the deal's, or such that there is a mismatch and the item is valued.
fn put_term(random: &mut Random, item: &mut Line, due: u64) {
    let residual = match due > 92 && random.percent(40) {
        true => random.between(91, due - 1),
        false => due,
    };
    item.fields[RESIDUAL_TERM] = residual;
    item.fields[ORIGINAL_TERM] = item.fields[ORIGINAL_TERM].max(residual).max(360);
}

#[cfg(test)]
mod tests {
    use super::*;
    use crate::deal::{deal, without_swaps};
    use crate::held::RESTRUCTURING;
    use crate::sides::reference_refusal;

    fn letters(deal: &[Line]) -> Vec<u8> {
        deal.iter().map(|line| line.letter).collect()
    }

    #[test]
    fn every_order_of_a_list_occurs() {
        let mut seen = [0; 5];
        for number in 0..2000 {
            let random = &mut Random::new(71, number);
            let mut deal = without_swaps(random, 1, 0, 17);
            swap_some(random, &mut deal);
            let letters = letters(&deal);
            let (first, last) = (&letters[1..=FULL], letters[FULL + 1]);
            let of = |letter| first.iter().all(|of| *of == letter);
            let order = match (of(b'G'), of(b'S'), last) {
                (true, _, b'G') => 0,
                (true, _, _) => 1,
                (_, true, b'S') => 2,
                (_, true, _) => 3,
                _ => 4,
            };
            seen[order] += 1;
            for line in deal.iter().filter(|line| line.letter == b'S') {
                assert!(line.fields[RESTRUCTURING] < 2);
            }
        }
        assert!(seen.iter().all(|count| *count > 100), "{seen:?}");
    }

    #[test]
    fn every_line_is_accepted() {
        for number in 0..2000 {
            let random = &mut Random::new(73, number);
            let mut deal = deal(random, number % 3 + 1);
            let before = letters(&deal);
            tell_swaps(random, &mut deal);
            assert_eq!(letters(&deal), before);
            for line in deal {
                let refusal = reference_refusal(line.letter, &line.fields);
                assert_eq!(refusal, 0, "{line:?}");
            }
        }
    }
}
