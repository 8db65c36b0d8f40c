//! Haircuts by edition, type, step, life band and kind, each to be met where it
//! makes a difference to a figure or is the ground.

use hadlephoga::{Collateral, HeldGuarantee, Outcome, Report, Terms};

use crate::bands::{self, band};
use crate::cells::{cell, Cell, Cells};
use crate::heading::EDITIONS;
use crate::held::GUARANTEE;
use crate::life_edges::{self, OF_COLLATERAL, OF_LENT};
use crate::values::has_step;

/// Of currencies, beside that of collateral.
const OF_GUARANTEE: u64 = 2;
const OF_SWAP: u64 = 3;
/// Not eligible by type and step.
const NOT_ELIGIBLE: u64 = 24;

pub struct Haircuts {
    pub collateral: Cells,
    pub lent: Cells,
    pub currencies: Cells,
    pub edges: Cells,
}

impl Haircuts {
    pub fn new() -> Self {
        Haircuts {
            collateral: Cells::new(
                "haircuts of collateral: edition, type, step, band, listed, kind",
                EDITIONS
                    .into_iter()
                    .flat_map(|edition| haircuts(edition, true)),
            ),
            lent: Cells::new(
                "haircuts of goods lent: edition, type, step, band, kind",
                EDITIONS
                    .into_iter()
                    .flat_map(|edition| haircuts(edition, false)),
            ),
            currencies: Cells::new(
                "currency haircuts: edition, whose, other currency, kind",
                currencies(),
            ),
            edges: life_edges::cells(
                "edges of bands: edition, collateral or lent, type, row, life",
            ),
        }
    }

    pub fn families(&self) -> [&Cells; 4] {
        [&self.collateral, &self.lent, &self.currencies, &self.edges]
    }

    /// The goods lent, whose haircut shows where it raises the exposure.
    pub fn meet_lent(&mut self, terms: &Terms, report: &Report) {
        if 0 < report.exposure && report.exposure < terms.amount {
            let goods = [terms.lent_type, terms.lent_step, terms.lent_issue_life];
            let edition = terms.edition;
            life_edges::meet(&mut self.edges, edition, OF_LENT, goods);
            let [goods, step, life] = goods;
            let band = band(edition, goods, life);
            self.lent.meet(&[edition, goods, step, band, terms.kind]);
        }
    }

    pub fn meet_collateral(&mut self, terms: &Terms, item: &Collateral, outcome: &Outcome) {
        let edition = terms.edition;
        let met = match outcome {
            Outcome::Valued(valuation) => valuation.value > 0,
            Outcome::LeftOut { ground, .. } => ground.0 == NOT_ELIGIBLE,
        };
        if met {
            let (goods, step) = (item.goods, item.step);
            let band = band(edition, goods, item.issue_life);
            let listed = u64::from(goods == 4 && step == 0) * item.listed;
            let cell = [edition, goods, step, band, listed, terms.kind];
            self.collateral.meet(&cell);
        }
        if outcome.value() > 0 {
            let goods = [item.goods, item.step, item.issue_life];
            life_edges::meet(&mut self.edges, edition, OF_COLLATERAL, goods);
            self.meet_currency(OF_COLLATERAL, terms, item.currency);
        }
    }

    /// A guarantee or swap that covers some of the exposure.
    pub fn meet_guarantee(&mut self, terms: &Terms, item: &HeldGuarantee) {
        let of = match item.instrument {
            GUARANTEE => OF_GUARANTEE,
            _ => OF_SWAP,
        };
        self.meet_currency(of, terms, item.currency);
    }

    fn meet_currency(&mut self, list: u64, terms: &Terms, currency: u64) {
        let other = u64::from(currency != terms.currency);
        let cell = [terms.edition, list, other, terms.kind];
        self.currencies.meet(&cell);
    }
}

fn pairs(
    ones: impl IntoIterator<Item = u64>,
    others: impl IntoIterator<Item = u64> + Clone,
) -> impl Iterator<Item = [u64; 2]> {
    let with = move |one| others.clone().into_iter().map(move |other| [one, other]);
    ones.into_iter().flat_map(with)
}

fn currencies() -> impl Iterator<Item = Cell> {
    pairs(EDITIONS, [OF_COLLATERAL, OF_GUARANTEE, OF_SWAP]).flat_map(|[edition, list]| {
        pairs([0, 1], 1..=3).map(move |[other, kind]| cell(&[edition, list, other, kind]))
    })
}

/// Every type, step, life band and kind of an edition; for collateral also both
/// entries of the listing where it counts.
fn haircuts(edition: u64, collateral: bool) -> impl Iterator<Item = Cell> {
    let rows = (1..=9).flat_map(move |goods| match has_step(goods) {
        true => {
            let rows = pairs(0..=6, 1..=bands::count(edition, goods));
            Vec::from_iter(rows.map(|[step, band]| [goods, step, band]))
        }
        false => vec![[goods, 0, 0]],
    });
    rows.flat_map(move |[goods, step, band]| {
        let listed = u64::from(goods == 4 && step == 0);
        pairs(0..=listed, 1..=3).filter_map(move |[listed, kind]| match collateral {
            true => Some(cell(&[edition, goods, step, band, listed, kind])),
            false => (listed == 0).then_some(cell(&[edition, goods, step, band, kind])),
        })
    })
}

#[cfg(test)]
mod tests {
    use super::*;

    #[test]
    fn every_haircut_is_listed() {
        let haircuts = Haircuts::new();
        // Four types without step; five with seven steps and three bands, of which
        // two have five bands under edition 3.
        let (earlier, later) = (4 + 5 * 7 * 3, 4 + 3 * 7 * 3 + 2 * 7 * 5);
        assert_eq!(haircuts.lent.all(), (2 * earlier + later) * 3);
        // Unrated bank debt besides, listed, in its bands.
        assert_eq!(
            haircuts.collateral.all(),
            (2 * (earlier + 3) + later + 5) * 3
        );
        assert_eq!(haircuts.currencies.all(), 3 * 3 * 2 * 3);
    }
}
