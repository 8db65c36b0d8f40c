//! One item in two: what the parts are, and where they stand.

use crate::random::Random;

/// What the parts are: nothing and all, all and nothing, one unit and the rest or the other way
/// round, halves, any.
pub const NOTHING_FIRST: u64 = 1;
pub const ALL_FIRST: u64 = 2;
pub const ONE_UNIT: u64 = 3;
pub const HALVES: u64 = 4;
pub const ANY: u64 = 5;
pub const PARTS: [u64; 5] = [NOTHING_FIRST, ALL_FIRST, ONE_UNIT, HALVES, ANY];

/// The first part stands where the item stood among the others, or elsewhere.
pub const STAYS: u64 = 1;
pub const MOVES: u64 = 2;

/// The second part is the first of the list, between others, or the last.
pub const FIRST: u64 = 1;
pub const BETWEEN: u64 = 2;
pub const LAST: u64 = 3;

/// Two amounts that make up this one.
pub fn amounts(random: &mut Random, parts: u64, amount: u64) -> [u64; 2] {
    let first = match parts {
        NOTHING_FIRST => 0,
        ALL_FIRST => amount,
        ONE_UNIT => match random.percent(50) {
            true => amount.min(1),
            false => amount.saturating_sub(1),
        },
        HALVES => amount / 2,
        _ if amount < 2 => 0,
        _ => random.between(1, amount - 1),
    };
    [first, amount - first]
}

/// Where the parts of an item stand in a list that has one more.
pub struct Placing {
    pub first: u64,
    pub second: u64,
    /// What was at each place; where the item was, twice.
    pub places: Vec<usize>,
    /// The places of both parts.
    pub parts: [usize; 2],
}

/// Of the item in this place of so many.
pub fn placing(random: &mut Random, item: usize, count: usize) -> Placing {
    let mut others = Vec::from_iter((0..count).filter(|place| *place != item));
    let first = match count {
        1 => STAYS,
        _ => random.pick(&[STAYS, MOVES]),
    };
    let second = match count {
        1 => random.pick(&[FIRST, LAST]),
        _ => random.pick(&[FIRST, BETWEEN, LAST]),
    };
    let mut at = match first {
        STAYS => item,
        _ => (item + 1 + random.index(count - 1)) % count,
    };
    others.insert(at, item);
    let other = match second {
        FIRST => 0,
        BETWEEN => random.between(1, count as u64 - 1) as usize,
        _ => count,
    };
    others.insert(other, item);
    at += usize::from(other <= at);
    Placing {
        first,
        second,
        places: others,
        parts: [at, other],
    }
}

#[cfg(test)]
mod tests {
    use super::*;

    #[test]
    fn amounts_make_up_the_whole() {
        for number in 0..1000 {
            let random = &mut Random::new(211, number);
            let (parts, amount) = (random.pick(&PARTS), random.below(6));
            let [first, second] = amounts(random, parts, amount);
            assert_eq!(first + second, amount);
            let one_is = |of| first == of || second == of;
            match parts {
                NOTHING_FIRST => assert_eq!(first, 0),
                ALL_FIRST => assert_eq!(second, 0),
                ONE_UNIT if amount > 0 => assert!(one_is(1)),
                HALVES => assert!(second - first < 2),
                ANY if amount > 1 => assert!(!one_is(0)),
                _ => assert!(amount < 2),
            }
        }
    }

    #[test]
    fn parts_stand_where_it_is_said() {
        let mut met = std::collections::BTreeSet::new();
        for number in 0..3000 {
            let random = &mut Random::new(223, number);
            let count = random.between(1, 5) as usize;
            let item = random.index(count);
            let placing = placing(random, item, count);
            let Placing { places, parts, .. } = &placing;
            assert_eq!(places.len(), count + 1);
            assert!(parts[0] != parts[1] && parts.iter().all(|part| places[*part] == item));
            let second = match parts[1] {
                0 => FIRST,
                last if last == count => LAST,
                _ => BETWEEN,
            };
            assert_eq!(second, placing.second);
            let mut kept = places.clone();
            kept.remove(parts[1]);
            let stays = kept == Vec::from_iter(0..count);
            assert_eq!(stays, placing.first == STAYS);
            kept.sort();
            assert_eq!(kept, Vec::from_iter(0..count));
            met.insert((placing.first, placing.second));
        }
        assert_eq!(met.len(), 6);
    }
}
