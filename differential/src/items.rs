//! Counted items of both lists, seen alike: what is sent of each and what became of
//! it.

use hadlephoga::{Outcome, Record, Report, Valuation};

use crate::cells::{cell, Cell};
use crate::heading::EDITIONS;
use crate::held::{GUARANTEE, WITHOUT_CONDITION, WITH_CONDITION};
use crate::steps::Steps;

/// Sorts of items: the instruments of guarantees and swaps, and collateral.
pub const COLLATERAL: u64 = 3;
pub const SORTS: [u64; 4] = [GUARANTEE, WITHOUT_CONDITION, WITH_CONDITION, COLLATERAL];

/// Kinds of deals.
const KINDS: [u64; 3] = [1, 2, 3];

pub struct Item {
    pub sort: u64,
    pub steps: Steps,
    pub outcome: Outcome,
}

/// The losses by haircut, by maturity and by cut, and the amount left out.
pub type Parts = [u64; 4];

pub fn parts(outcome: &Outcome) -> Parts {
    match outcome {
        Outcome::Valued(valuation) => losses(valuation),
        Outcome::LeftOut { amount, .. } => [0, 0, 0, *amount],
    }
}

pub fn losses(valuation: &Valuation) -> Parts {
    [
        valuation.haircut_loss,
        valuation.maturity_loss,
        valuation.cut_loss,
        0,
    ]
}

/// Those of an accepted deal.
pub struct Items {
    /// Its edition and kind.
    pub deal: [u64; 2],
    /// Collateral; guarantees and swaps.
    pub lists: [Vec<Item>; 2],
}

impl Items {
    pub fn new(record: &Record, report: &Report) -> Self {
        let terms = &record.terms;
        let collateral = record.collateral.iter().zip(&report.collateral);
        let collateral = collateral.take(record.collateral_count as usize);
        let collateral = collateral.map(|(item, outcome)| Item {
            sort: COLLATERAL,
            steps: Steps::of_collateral(terms, item),
            outcome: *outcome,
        });
        let guarantees = record.guarantees.iter().zip(&report.guarantees);
        let guarantees = guarantees.take(record.guarantee_count as usize);
        let guarantees = guarantees.map(|(item, cover)| Item {
            sort: item.instrument,
            steps: Steps::of_guarantee(terms, item),
            outcome: cover.outcome,
        });
        Items {
            deal: [terms.edition, terms.kind],
            lists: [collateral.collect(), guarantees.collect()],
        }
    }
}

/// Each of these cases under each edition and with each kind of deal.
pub fn by_deal<const LENGTH: usize>(
    cases: impl IntoIterator<Item = [u64; LENGTH]>,
) -> impl Iterator<Item = Cell> {
    cases.into_iter().flat_map(|of| {
        let deals = EDITIONS.into_iter();
        let deals = deals.flat_map(|edition| KINDS.map(|kind| [edition, kind]));
        deals.map(move |deal| cell(&[&deal, &of[..]].concat()))
    })
}

#[cfg(test)]
mod tests {
    use super::*;
    use hadlephoga::{Collateral, Terms};

    #[test]
    fn counted_items_alone() {
        let terms = Terms::from_numbers(&[500, 3, 0, 0, 978, 2, 1, 90, 1, 0, 0, 3]);
        let cash = Collateral::from_numbers(&[50, 1, 0, 0, 840, 90, 90, 1, 1, 1, 0]);
        let mut record = Record::new(terms, &[cash], &[]);
        record.collateral[1] = cash;
        let report = hadlephoga::report(&record).expect("an accepted deal");
        let items = Items::new(&record, &report);
        assert_eq!(items.deal, [3, 2]);
        assert_eq!(items.lists.each_ref().map(Vec::len), [1, 0]);
        assert_eq!(items.lists[0][0].sort, COLLATERAL);
        assert_eq!(parts(&items.lists[0][0].outcome), [4, 0, 0, 0]);
    }

    #[test]
    fn cases_of_each_deal() {
        let cells = Vec::from_iter(by_deal([[7, 8], [9, 0]]));
        assert_eq!(cells.len(), 2 * 9);
        assert_eq!(cells[0], cell(&[1, 1, 7, 8]));
        assert_eq!(cells[17], cell(&[3, 3, 9, 0]));
    }
}
