//! Netting sets whose amounts sum up to the limit, to one above it, or to much more.

use reference::NettingSet;

use crate::draft::{shuffle, Draft};
use crate::random::Random;
use crate::set::{LENT, POSITIONS, RECEIVED};
use crate::set_goods;
use crate::values::AMOUNT_LIMIT;

pub fn at_the_limit(random: &mut Random) -> NettingSet {
    let mut draft = Draft::new(random);
    let count = match random.below(6) {
        0 => 1,
        1 | 2 => 2,
        3 | 4 => POSITIONS,
        _ => random.between(3, POSITIONS as u64 - 1) as usize,
    };
    let amounts = amounts(random, count);
    let sides = random.pick(&[[LENT; 2], [RECEIVED; 2], [LENT, RECEIVED]]);
    let goods = set_goods::eligible(random);
    let currency = draft.currency(random);
    let first = draft.security(random, goods, currency);
    for (place, amount) in amounts.into_iter().enumerate() {
        let goods = set_goods::eligible(random);
        let one = match random.percent(50) {
            true => first,
            false => {
                let currency = draft.currency(random);
                draft.security(random, goods, currency)
            }
        };
        draft.put(one, sides[place % 2], amount);
    }
    shuffle(random, &mut draft.set.positions);
    draft.set
}

/// One amount alone is held to the limit by itself, so that it is never above it.
fn amounts(random: &mut Random, count: usize) -> Vec<u64> {
    let mut left = match random.below(10) {
        0..=2 => AMOUNT_LIMIT,
        3 | 4 => AMOUNT_LIMIT - 1,
        5..=7 => AMOUNT_LIMIT + u64::from(count > 1),
        _ if count > 1 => return vec![AMOUNT_LIMIT; count],
        _ => AMOUNT_LIMIT,
    };
    // All but nothing in one position, or parts of any size.
    let whole = random.percent(30);
    let mut amounts = Vec::new();
    for later in (1..count as u64).rev() {
        let part = match whole {
            true => random.below(2),
            false => random.between(0, (left / (later + 1) * 2).min(AMOUNT_LIMIT)),
        };
        amounts.push(part.min(left));
        left -= part.min(left);
    }
    // What is left may be one above what a position can have.
    amounts.push(left.min(AMOUNT_LIMIT));
    if left > AMOUNT_LIMIT {
        amounts[0] += 1;
    }
    amounts
}

#[cfg(test)]
mod tests {
    use super::*;
    use std::collections::HashSet;

    #[test]
    fn sums() {
        let mut sums = HashSet::new();
        for number in 0..2000 {
            let random = &mut Random::new(103, number);
            let count = random.between(1, 32) as usize;
            let amounts = amounts(random, count);
            assert_eq!(amounts.len(), count);
            assert!(amounts.iter().all(|amount| *amount <= AMOUNT_LIMIT));
            sums.insert(amounts.iter().sum::<u64>());
        }
        for sum in [0, 1, 2].map(|of| AMOUNT_LIMIT - 1 + of) {
            assert!(sums.contains(&sum), "{sum}");
        }
        // Two to thirty-two at the limit.
        assert_eq!(sums.len(), 3 + 31);
    }
}
