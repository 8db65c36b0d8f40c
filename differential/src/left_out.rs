//! Items that are left out, under each edition and with each kind of deal: on each
//! ground with amounts from 0 to the limit, and next to an item that is valued with a
//! loss, whose numbers it could get or give.

use hadlephoga::Outcome;

use crate::answers::{COLLATERAL_GROUNDS, GROUNDS};
use crate::cells::Cells;
use crate::held::INSTRUMENTS;
use crate::items::{by_deal, Item, Items, COLLATERAL, SORTS};
use crate::values::AMOUNT_LIMIT;

/// An amount that is left out: none, one, the limit, or between these.
const NONE: u64 = 0;
const ONE: u64 = 1;
const BETWEEN: u64 = 2;
const LARGEST: u64 = 3;

/// Where the valued item stands.
const BEFORE: u64 = 1;
const BEHIND: u64 = 2;

pub struct LeftOut {
    amounts: Cells,
    neighbours: Cells,
}

impl LeftOut {
    pub fn new() -> Self {
        let amounts = SORTS.into_iter().flat_map(|sort| {
            let grounds = grounds(sort).into_iter();
            grounds.flat_map(move |ground| {
                [NONE, ONE, BETWEEN, LARGEST].map(|amount| [sort, ground, amount])
            })
        });
        let pairs = INSTRUMENTS.map(|one| INSTRUMENTS.map(|other| [one, other]));
        let pairs = (pairs.into_iter().flatten()).chain([[COLLATERAL, COLLATERAL]]);
        let neighbours =
            pairs.flat_map(|[one, other]| [BEFORE, BEHIND].map(|place| [one, other, place]));
        LeftOut {
            amounts: Cells::new(
                "amounts left out: edition, kind, sort, ground, none to largest",
                by_deal(amounts),
            ),
            neighbours: Cells::new(
                "left out next to valued: edition, kind, sort, valued sort, place",
                by_deal(neighbours),
            ),
        }
    }

    pub fn families(&self) -> [&Cells; 2] {
        [&self.amounts, &self.neighbours]
    }

    /// The report of an accepted deal.
    pub fn meet(&mut self, items: &Items) {
        let [edition, kind] = items.deal;
        for list in &items.lists {
            for item in list {
                if let Outcome::LeftOut { ground, amount } = item.outcome {
                    let cell = [edition, kind, item.sort, ground.0, size(amount)];
                    self.amounts.meet(&cell);
                }
            }
            for pair in list.windows(2) {
                let neighbours = match [&pair[0], &pair[1]] {
                    [out, valued] if is_told(out, valued) => [out.sort, valued.sort, BEHIND],
                    [valued, out] if is_told(out, valued) => [out.sort, valued.sort, BEFORE],
                    _ => continue,
                };
                self.neighbours
                    .meet(&[&[edition, kind], &neighbours[..]].concat());
            }
        }
    }
}

fn grounds(sort: u64) -> Vec<u64> {
    match sort {
        COLLATERAL => COLLATERAL_GROUNDS.to_vec(),
        _ => GROUNDS.to_vec(),
    }
}

fn size(amount: u64) -> u64 {
    match amount {
        0 => NONE,
        1 => ONE,
        AMOUNT_LIMIT => LARGEST,
        _ => BETWEEN,
    }
}

/// Whether these are what is left out and what is valued with a loss, neither of them
/// without an amount.
fn is_told(out: &Item, valued: &Item) -> bool {
    let [out, valued] = [out.outcome, valued.outcome];
    out.left_out() > 0 && valued.value() > 0 && valued.losses() > 0
}

#[cfg(test)]
mod tests {
    use super::*;
    use crate::held::{GUARANTEE, WITHOUT_CONDITION};
    use hadlephoga::{Collateral, HeldGuarantee, Record, Terms};

    #[test]
    fn every_case_is_listed() {
        let all = LeftOut::new().families().map(Cells::all);
        assert_eq!(all, [9 * (6 + 3 * 7) * 4, 9 * (3 * 3 + 1) * 2]);
    }

    /// What is met of a loan, without edition and kind.
    fn met(collateral: &[Collateral], guarantees: &[HeldGuarantee]) -> [Vec<[u64; 3]>; 2] {
        let terms = [1000, 3, 6, 0, 978, 3, 1, 90, 1, 0, 0, 3];
        let record = Record::new(Terms::from_numbers(&terms), collateral, guarantees);
        let report = hadlephoga::report(&record).expect("an accepted deal");
        let mut left_out = LeftOut::new();
        left_out.meet(&Items::new(&record, &report));
        left_out.families().map(|cells| {
            assert_eq!(cells.unlisted().count(), 0);
            let met = cells.counts().filter(|(_, count)| *count > 0);
            met.map(|(cell, _)| [cell[2], cell[3], cell[4]]).collect()
        })
    }

    #[test]
    fn amounts_and_neighbours() {
        let cash = |amount, currency, lawful| {
            Collateral::from_numbers(&[amount, 1, 0, 0, currency, 90, 90, lawful, 1, 1, 0])
        };
        let [amounts, neighbours] = met(&[cash(1, 978, 0), cash(50, 840, 1)], &[]);
        assert_eq!(amounts, [[COLLATERAL, 21, ONE]]);
        assert_eq!(neighbours, [[COLLATERAL, COLLATERAL, BEHIND]]);
        let guarantee = |amount, step, instrument| {
            let sent = [amount, 1, step, 0, 978, 90, 90, 1, 1, 1, instrument];
            HeldGuarantee::from_numbers(&sent)
        };
        let [amounts, neighbours] = met(
            &[],
            &[
                guarantee(50, 1, WITHOUT_CONDITION),
                guarantee(AMOUNT_LIMIT, 6, GUARANTEE),
            ],
        );
        assert_eq!(amounts, [[GUARANTEE, 29, LARGEST]]);
        assert_eq!(neighbours, [[GUARANTEE, WITHOUT_CONDITION, BEFORE]]);
        // Nothing is lost, or nothing is left out.
        for collateral in [
            [cash(1, 978, 0), cash(50, 978, 1)],
            [cash(0, 978, 0), cash(50, 840, 1)],
        ] {
            let [_, neighbours] = met(&collateral, &[]);
            assert_eq!(neighbours, [[0; 3]; 0]);
        }
    }
}
