//! Other orders of a netting set's positions, which change nothing.

use reference::NettingSet;

use crate::cells::{cell, Cells};
use crate::draft::shuffle;
use crate::random::Random;
use crate::set::POSITIONS;

/// How the order is changed.
const REVERSED: u64 = 1;
const TURNED: u64 = 2;
const TWO_EXCHANGED: u64 = 3;
const SHUFFLED: u64 = 4;

/// By how the order is changed, and by how many positions there are: two, more, or all that
/// there may be.
pub fn cells(title: &'static str) -> Cells {
    let orders = (REVERSED..=SHUFFLED).flat_map(|how| [2, 3, 32].map(|count| cell(&[how, count])));
    Cells::new(title, orders)
}

/// The set in another order, and how it was changed.
pub fn another(random: &mut Random, set: &NettingSet) -> (u64, NettingSet) {
    let mut other = set.clone();
    let positions = &mut other.positions;
    let count = positions.len().max(1);
    let how = random.between(REVERSED, SHUFFLED);
    match how {
        REVERSED => positions.reverse(),
        TURNED => positions.rotate_left(random.index(count)),
        TWO_EXCHANGED if !positions.is_empty() => {
            let (one, other) = (random.index(count), random.index(count));
            positions.swap(one, other);
        }
        _ => shuffle(random, positions),
    }
    (how, other)
}

/// Counts an order that is another.
pub fn meet(cells: &mut Cells, set: &NettingSet, (how, other): &(u64, NettingSet)) {
    let count = match set.positions.len() {
        POSITIONS => 32,
        count => count.min(3) as u64,
    };
    if set != other {
        cells.meet(&[*how, count]);
    }
}

#[cfg(test)]
mod tests {
    use super::*;
    use crate::set::position_numbers;
    use crate::sets::any_set;

    #[test]
    fn every_order_is_met_and_keeps_the_positions() {
        let mut met = cells("");
        assert_eq!(met.all(), 12);
        for number in 0..5000 {
            let random = &mut Random::new(163, number);
            let set = any_set(random);
            let order = another(random, &set);
            meet(&mut met, &set, &order);
            let [before, after] = [&set, &order.1].map(|set| {
                let mut numbers = Vec::from_iter(set.positions.iter().map(position_numbers));
                numbers.sort();
                numbers
            });
            assert_eq!(before, after);
        }
        assert_eq!((met.met(), met.unlisted().count()), (12, 0));
    }
}
