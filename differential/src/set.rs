//! A netting set as the numbers that are sent: six of its own, then seven for each position.

use reference::{NettingSet, Position};

/// How many numbers there are of each.
pub const OWN: usize = 6;
pub const WIDTH: usize = 7;
/// The most positions.
pub const POSITIONS: usize = 32;

/// Tables that a set can name.
pub const TABLES: [u64; 2] = [2, 3];
/// Sides of a position.
pub const LENT: u64 = 1;
pub const RECEIVED: u64 = 2;
/// The type of cash, and the security number that it has.
pub const CASH: u64 = 1;
pub const NO_SECURITY: u64 = 0;

/// Places of a set's own numbers.
pub const TABLE: usize = 0;
pub const CLASS: usize = 1;
pub const STEP: usize = 2;
pub const SOVEREIGN_STEP: usize = 3;
pub const SETTLEMENT: usize = 4;
pub const INTERVAL: usize = 5;

/// Places of a position's numbers.
pub const SIDE: usize = 0;
pub const AMOUNT: usize = 1;
pub const SECURITY: usize = 2;
pub const GOODS: usize = 3;
pub const GOODS_STEP: usize = 4;
pub const LIFE: usize = 5;
pub const CURRENCY: usize = 6;

/// Where this number of this position stands among those of the set.
pub fn place(position: usize, field: usize) -> usize {
    OWN + position * WIDTH + field
}

pub fn position_numbers(position: &Position) -> [u64; WIDTH] {
    [
        position.side,
        position.amount,
        position.security,
        position.goods,
        position.step,
        position.life,
        position.currency,
    ]
}

pub fn numbers(set: &NettingSet) -> Vec<u64> {
    let own = [
        set.table,
        set.class,
        set.step,
        set.sovereign_step,
        set.settlement,
        set.interval,
    ];
    let positions = set.positions.iter().flat_map(position_numbers);
    own.into_iter().chain(positions).collect()
}

/// None where a number is missing, or some are over.
pub fn from_numbers(numbers: &[u64]) -> Option<NettingSet> {
    let (own, positions) = numbers.split_first_chunk::<OWN>()?;
    let positions = positions.chunks(WIDTH).map(|numbers| {
        let numbers: [u64; WIDTH] = numbers.try_into().ok()?;
        Some(Position::from(numbers))
    });
    Some(NettingSet::new(*own, positions.collect::<Option<_>>()?))
}

#[cfg(test)]
mod tests {
    use super::*;

    #[test]
    fn forth_and_back() {
        for length in 0..60 {
            let sent = Vec::from_iter(1..=length as u64);
            let set = from_numbers(&sent);
            let whole = length >= OWN && (length - OWN) % WIDTH == 0;
            assert_eq!(set.is_some(), whole, "{length}");
            if let Some(set) = set {
                assert_eq!(numbers(&set), sent);
                assert_eq!(set.positions.len(), (length - OWN) / WIDTH);
            }
        }
    }

    #[test]
    fn places() {
        let set = from_numbers(&Vec::from_iter(0..27)).expect("three positions");
        assert_eq!(set.interval, INTERVAL as u64);
        assert_eq!(set.positions[0].side, place(0, SIDE) as u64);
        assert_eq!(set.positions[2].life, place(2, LIFE) as u64);
        assert_eq!(set.positions[2].currency, place(2, CURRENCY) as u64);
    }
}
