//! The single order in which guarantees and swaps cover the exposure, to be met
//! where two items of different instruments show it: the first is used whole, and
//! the second would be used more if it came first.

use std::collections::BTreeMap;

use hadlephoga::{Cover, HeldGuarantee, Outcome, Record, Report, Terms};

use crate::cells::{cell, Cells};
use crate::heading::EDITIONS;
use crate::held::{GUARANTEE, INSTRUMENTS};
use crate::sides::reference_weighted_amount;

/// Why the first item comes first: it weighs less, though it was added later; or it
/// weighs the same and was added earlier.
const LIGHTER: u64 = 1;
const EARLIER: u64 = 2;

pub struct Order {
    pub cells: Cells,
    /// Of providers by edition, class, step and sovereign's step, as they were asked
    /// for.
    weights: BTreeMap<[u64; 4], u64>,
}

impl Order {
    pub fn new() -> Self {
        let pairs = INSTRUMENTS.into_iter();
        let pairs = pairs.flat_map(|one| INSTRUMENTS.map(|other| [one, other]));
        let pairs = pairs.filter(|[one, other]| one != other);
        let cells = pairs.flat_map(|[one, other]| {
            let why = [LIGHTER, EARLIER].into_iter();
            why.flat_map(move |why| EDITIONS.map(|of| cell(&[of, why, one, other])))
        });
        Order {
            cells: Cells::new(
                "order of cover: edition, lighter or earlier, first, second instrument",
                cells,
            ),
            weights: BTreeMap::new(),
        }
    }

    /// The report of an accepted deal.
    pub fn meet(&mut self, record: &Record, report: &Report) {
        let edition = record.terms.edition;
        let covers = record.guarantees.iter().zip(&report.guarantees).enumerate();
        let covers = covers.take(record.guarantee_count as usize);
        let (firsts, seconds) = covers
            .filter(|(_, (_, cover))| cover.outcome.value() > 0)
            .partition::<Vec<_>, _>(|(_, (_, cover))| is_used_up(cover));
        for (place, (first, _)) in &firsts {
            for (other, (second, _)) in &seconds {
                if first.instrument == second.instrument {
                    continue;
                }
                let weights = [first, second].map(|item| self.weight(edition, item));
                let why = match (weights[0] == weights[1], place < other) {
                    (false, false) => LIGHTER,
                    (true, true) => EARLIER,
                    _ => continue,
                };
                let cell = [edition, why, first.instrument, second.instrument];
                self.cells.meet(&cell);
            }
        }
    }

    /// Of a provider who is recognised in some deal.
    fn weight(&mut self, edition: u64, item: &HeldGuarantee) -> u64 {
        let provider = [edition, item.class, item.step, item.sovereign_step];
        let weight = || weight(edition, item);
        *self.weights.entry(provider).or_insert_with(weight)
    }
}

fn is_used_up(cover: &Cover) -> bool {
    matches!(cover.outcome, Outcome::Valued(valuation) if valuation.value == cover.portion)
}

/// What a hundred weighs that is lent to a counterparty who weighs more than every
/// provider, and guaranteed.
fn weight(edition: u64, item: &HeldGuarantee) -> u64 {
    let terms = Terms::from_numbers(&[100, 1, 6, 0, item.currency, 3, 1, 1, 1, 0, 0, edition]);
    let item = HeldGuarantee {
        amount: 100,
        instrument: GUARANTEE,
        ..*item
    };
    reference_weighted_amount(&Record::new(terms, &[], &[item]))
}

#[cfg(test)]
mod tests {
    use super::*;
    use crate::held::{WITHOUT_CONDITION, WITH_CONDITION};

    /// What shows of a loan of 100 with these items: class, step, amount, instrument.
    fn met(items: &[[u64; 4]]) -> Vec<[u64; 3]> {
        let terms = Terms::from_numbers(&[100, 3, 6, 0, 978, 3, 1, 90, 1, 0, 0, 2]);
        let of = |[class, step, amount, instrument]: &[u64; 4]| {
            let numbers = [*amount, *class, *step, 0, 978, 90, 90, 1, 1, 1, *instrument];
            HeldGuarantee::from_numbers(&numbers)
        };
        let items = Vec::from_iter(items.iter().map(of));
        let record = Record::new(terms, &[], &items);
        let report = hadlephoga::report(&record).expect("an accepted deal");
        let mut order = Order::new();
        order.meet(&record, &report);
        assert_eq!(order.cells.unlisted().count(), 0);
        let met = order.cells.counts().filter(|(_, count)| *count > 0);
        met.map(|(cell, _)| [cell[1], cell[2], cell[3]]).collect()
    }

    #[test]
    fn orders_that_show() {
        let (without, with) = (WITHOUT_CONDITION, WITH_CONDITION);
        let lighter = |first, second| [[LIGHTER, first, second]];
        assert_eq!(met(&[[2, 1, 90, 0], [1, 1, 90, with]]), lighter(with, 0));
        assert_eq!(met(&[[2, 1, 90, with], [1, 1, 90, 0]]), lighter(0, with));
        // Of 90, 54 are left.
        let pair = [[3, 2, 90, with], [2, 1, 90, without]];
        assert_eq!(met(&pair), lighter(without, with));
        let earlier = [[EARLIER, with, 0]];
        assert_eq!(met(&[[2, 1, 90, with], [3, 1, 90, 0]]), earlier);
        assert_eq!(met(&[[2, 1, 90, with], [1, 2, 90, 0]]), earlier);
    }

    #[test]
    fn orders_that_do_not_show() {
        // Both are used up, or the lighter one was added first anyway.
        assert_eq!(met(&[[2, 1, 50, 0], [1, 1, 50, 2]]), [[0; 3]; 0]);
        assert_eq!(met(&[[1, 1, 90, 2], [2, 1, 90, 0]]), [[0; 3]; 0]);
        assert_eq!(met(&[[2, 1, 90, 2], [1, 1, 90, 2]]), [[0; 3]; 0]);
    }

    #[test]
    fn every_pair_is_listed() {
        assert_eq!(Order::new().cells.all(), 3 * 2 * 6);
    }
}
