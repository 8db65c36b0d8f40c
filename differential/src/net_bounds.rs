//! Where E* stands beside its bounds and how it is rounded; how the weighted amount is; and
//! sums of amounts at the limit.

use reference::NettingSet;

use crate::cells::{cell, Cells};
use crate::nets::{rounded_up, Nets, WHOLE};
use crate::parties::of_classes;
use crate::set::{LENT, RECEIVED, TABLES};
use crate::set_bounds::FRACTIONS;
use crate::values::AMOUNT_LIMIT;
use crate::weighing::weight;

/// All millionths, before they are rounded: far below 0, less than a unit below it, none, and
/// what is rounded up to 1; E* one below all that was lent; as much, whole or by rounding; one
/// more, which is held to it, and much more.
const FAR_BELOW: u64 = 1;
const BELOW: u64 = 2;
const NOTHING: u64 = 3;
const ONE: u64 = 4;
const ONE_LESS: u64 = 5;
const WHOLE_CAP: u64 = 6;
const ROUNDED_CAP: u64 = 7;
const ONE_MORE: u64 = 8;
const MUCH_MORE: u64 = 9;

/// What is left over a hundred in the weighted amount: nothing or something.
const EXACT: u64 = 0;
const ROUNDED: u64 = 1;

pub struct NetBounds {
    bounds: Cells,
    /// Of E* between its bounds.
    fractions: Cells,
    weighted: Cells,
    sums: Cells,
}

/// Sums that are told apart: one below the limit, at it, one above it, and much above it.
fn sum_at(sum: u128) -> Option<u64> {
    let limit = u128::from(AMOUNT_LIMIT);
    match sum {
        _ if sum + 1 == limit => Some(1),
        _ if sum == limit => Some(2),
        _ if sum == limit + 1 => Some(3),
        _ if sum >= 2 * limit => Some(4),
        _ => None,
    }
}

/// Some of so many amounts: one, two, more, thirty-two.
fn how_many(count: usize) -> u64 {
    match count {
        0..=2 => count as u64,
        32 => 4,
        _ => 3,
    }
}

fn sums() -> Vec<[u64; 4]> {
    let mut sums = Vec::new();
    for (sum, count) in (1..=4).flat_map(|sum| (1..=4).map(move |count| (sum, count))) {
        let refusal = if sum > 2 { 17 } else { 0 };
        // One amount is never above the limit, nor on both sides.
        let sides = match (count, refusal) {
            (1, 17) => continue,
            (1, _) => LENT..=RECEIVED,
            _ => LENT..=LENT + RECEIVED,
        };
        sums.extend(sides.map(|sides| [sum, count, sides, refusal]));
    }
    sums
}

fn weights() -> Vec<[u64; 3]> {
    let mut weights = Vec::new();
    for table in TABLES {
        let parties = of_classes(1..=4).map(|party| weight(table, party));
        for weight in parties {
            weights.push([table, weight, EXACT]);
            if weight % 100 != 0 {
                weights.push([table, weight, ROUNDED]);
            }
        }
    }
    weights
}

impl NetBounds {
    pub fn new() -> Self {
        let by_table = |cases: Vec<u64>| {
            let tables = TABLES.into_iter();
            tables.flat_map(move |table| {
                let cases = cases.clone().into_iter();
                cases.map(move |case| cell(&[table, case]))
            })
        };
        NetBounds {
            bounds: Cells::new(
                "sets, exposure beside its bounds: table, where",
                by_table((FAR_BELOW..=MUCH_MORE).collect()),
            ),
            fractions: Cells::new(
                "sets, exposure rounded up: table, millionths",
                by_table(FRACTIONS.to_vec()),
            ),
            weighted: Cells::new(
                "sets, weighted amounts: table, weight, exact or rounded",
                weights().iter().map(|case| cell(case)),
            ),
            sums: Cells::new(
                "sets, sums of amounts: sum, how many, sides, refusal",
                sums().iter().map(|case| cell(case)),
            ),
        }
    }

    pub fn families(&self) -> [&Cells; 4] {
        [&self.bounds, &self.fractions, &self.weighted, &self.sums]
    }

    /// An accepted set and what it comes to.
    pub fn meet(&mut self, set: &NettingSet, nets: &Nets) {
        let millionths = nets.millionths();
        // Haircuts are what makes it hard.
        if millionths > nets.balance() {
            if let Some(place) = place(nets, millionths) {
                self.bounds.meet(&[set.table, place]);
            }
            let fraction = millionths.rem_euclid(WHOLE) as u64;
            let open = (1..nets.lent).contains(&rounded_up(millionths));
            if open && FRACTIONS.contains(&fraction) {
                self.fractions.meet(&[set.table, fraction]);
            }
        }
        let [exposure, _] = nets.figures();
        if exposure > 0 {
            let rounded = u64::from(exposure * nets.weight % 100 > 0);
            self.weighted.meet(&[set.table, nets.weight, rounded]);
        }
    }

    /// A set whose positions are accepted, with the refusal of their sum or none.
    pub fn meet_sum(&mut self, set: &NettingSet, refusal: u64) {
        let amounts = set.positions.iter().filter(|one| one.amount > 0);
        let sum = amounts.clone().map(|one| u128::from(one.amount)).sum();
        let stands = |side: u64| u64::from(amounts.clone().any(|one| one.side == side)) * side;
        let sides = stands(LENT) + stands(RECEIVED);
        if let Some(sum) = sum_at(sum).filter(|_| [0, 17].contains(&refusal)) {
            let count = how_many(amounts.clone().count());
            self.sums.meet(&[sum, count, sides, refusal]);
        }
    }
}

fn place(nets: &Nets, millionths: i128) -> Option<u64> {
    let over = rounded_up(millionths) - nets.lent;
    match millionths {
        _ if millionths <= -WHOLE => Some(FAR_BELOW),
        _ if millionths < 0 => Some(BELOW),
        0 => Some(NOTHING),
        _ if millionths <= WHOLE && nets.lent > 1 => Some(ONE),
        _ if over > 1 => Some(MUCH_MORE),
        _ if over == 1 => Some(ONE_MORE),
        _ if over == 0 && millionths % WHOLE == 0 => Some(WHOLE_CAP),
        _ if over == 0 => Some(ROUNDED_CAP),
        _ if over == -1 => Some(ONE_LESS),
        _ => None,
    }
}

#[cfg(test)]
mod tests {
    use super::*;
    use crate::random::Random;
    use crate::set::numbers;
    use crate::set_bounds::at_bounds;
    use crate::set_sums::at_the_limit;
    use crate::sides::Side;

    #[test]
    fn every_case_is_listed_and_met() {
        let mut met = NetBounds::new();
        // Weights of 0 and 100 leave nothing; 20, 50, 75, 150 and, under table 3, 30 may.
        let weights = (6 + 4) + (7 + 5);
        let all = [2 * 9, 2 * 4, weights, 2 * 2 + 3 * 3 * 4];
        assert_eq!(met.families().map(|cells| cells.all()), all);
        for number in 0..6000 {
            let random = &mut Random::new(149, number);
            let set = at_bounds(random);
            met.meet(&set, &Nets::of(&set));
            let set = at_the_limit(random);
            met.meet_sum(&set, Side::Reference.net_set(&numbers(&set)).refusal);
        }
        for cells in met.families() {
            let never = Vec::from_iter(cells.never_met());
            assert_eq!(
                (never, cells.unlisted().count()),
                (vec![], 0),
                "{}",
                cells.title
            );
        }
    }
}
