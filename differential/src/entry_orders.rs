//! Other orders in which the items of a deal may be entered.

use hadlephoga::ITEMS;

use crate::draft::shuffle;
use crate::random::Random;

/// How the order is changed.
pub const REVERSED: u64 = 1;
pub const TURNED: u64 = 2;
pub const TWO_EXCHANGED: u64 = 3;
pub const SHUFFLED: u64 = 4;
pub const ORDERS: [u64; 4] = [REVERSED, TURNED, TWO_EXCHANGED, SHUFFLED];

/// How many items there are: two, a few, or all that there may be.
pub const SIZES: [u64; 3] = [2, 3, ITEMS as u64];

pub fn size(count: usize) -> u64 {
    match count {
        ITEMS => count as u64,
        _ => count.min(3) as u64,
    }
}

/// The places of so many items in another order, by how it is changed. It may be the same one
/// by chance, and is of fewer than two.
pub fn places(random: &mut Random, how: u64, count: usize) -> Vec<usize> {
    let mut places = Vec::from_iter(0..count);
    if count < 2 {
        return places;
    }
    match how {
        REVERSED => places.reverse(),
        TURNED if random.percent(50) => places.rotate_left(1),
        TURNED => places.rotate_right(1),
        TWO_EXCHANGED => {
            let one = random.index(count);
            let other = (one + 1 + random.index(count - 1)) % count;
            places.swap(one, other);
        }
        _ => shuffle(random, &mut places),
    }
    places
}

#[cfg(test)]
mod tests {
    use super::*;

    #[test]
    fn every_place_stays_in_the_order_once() {
        for number in 0..2000 {
            let random = &mut Random::new(181, number);
            let count = random.index(18);
            let how = random.pick(&ORDERS);
            let mut order = places(random, how, count);
            let away = (0..count).filter(|place| order[*place] != *place).count();
            match how {
                TWO_EXCHANGED if count > 1 => assert_eq!(away, 2),
                TURNED if count > 1 => assert_eq!(away, count),
                _ => assert!(away <= count),
            }
            order.sort();
            assert_eq!(order, Vec::from_iter(0..count));
        }
        assert_eq!(places(&mut Random::new(1, 1), REVERSED, 3), [2, 1, 0]);
    }

    #[test]
    fn sizes_of_lists() {
        assert_eq!([2, 3, 15, 16].map(size), [2, 3, 3, 16]);
    }
}
