//! Stored figures: every table haircut at the holding periods of daily deals, in
//! each use that it can have, however the period came about; and at the periods
//! next to these, where nothing stored may be used. Each is to be met where a
//! figure one millionth higher or lower would change a number of the report.

use hadlephoga::{Collateral, HeldGuarantee, Outcome, Record, Report, Terms};

use crate::cells::{cell, Cell, Cells};
use crate::heading::EDITIONS;
use crate::held::GUARANTEE;
use crate::periods;
use crate::steps::Steps;
use crate::table_haircuts::{self, CURRENCY};

/// What the figure is used for.
const OF_COLLATERAL: u64 = 1;
const OF_LENT: u64 = 2;
const OF_LENT_NOT_ELIGIBLE: u64 = 3;
const OF_COLLATERAL_CURRENCY: u64 = 4;
const OF_GUARANTEE_CURRENCY: u64 = 5;
const OF_SWAP_CURRENCY: u64 = 6;
const USES: [u64; 6] = [
    OF_COLLATERAL,
    OF_LENT,
    OF_LENT_NOT_ELIGIBLE,
    OF_COLLATERAL_CURRENCY,
    OF_GUARANTEE_CURRENCY,
    OF_SWAP_CURRENCY,
];

/// Of daily deals, by kind.
const DAILY: [u64; 3] = [5, 10, 20];
/// A day from these, and those of weekly deals.
const NEXT: [u64; 7] = [6, 9, 11, 14, 19, 21, 24];

/// From this amount on a millionth is at least one unit, however it is rounded.
const TELLING_AMOUNT: u64 = 1_000_000;

pub struct Stored {
    /// The kind says how the period came about: for one period every other kind
    /// has another interval.
    daily: Cells,
    next: Cells,
}

impl Stored {
    pub fn new() -> Self {
        Stored {
            daily: Cells::new(
                "figures at daily periods: edition, use, period, haircut, kind",
                daily(),
            ),
            next: Cells::new(
                "figures at other periods: edition, use, period, haircut",
                next(),
            ),
        }
    }

    pub fn families(&self) -> [&Cells; 2] {
        [&self.daily, &self.next]
    }

    /// The report of an accepted deal.
    pub fn meet(&mut self, record: &Record, report: &Report) {
        let terms = &record.terms;
        self.meet_lent(terms, report);
        let counted = record.collateral.iter().zip(&report.collateral);
        for (item, outcome) in counted.take(record.collateral_count as usize) {
            if tells(terms, item.amount, item.residual_term, outcome) {
                self.meet_collateral(terms, item);
            }
        }
        let counted = record.guarantees.iter().zip(&report.guarantees);
        for (item, cover) in counted.take(record.guarantee_count as usize) {
            let amount = Steps::of_guarantee(terms, item).after_cut();
            if tells(terms, amount, item.residual_term, &cover.outcome) {
                self.meet_guarantee(terms, item);
            }
        }
    }

    /// The goods lent, where the exposure is neither 0 nor held to the amount.
    fn meet_lent(&mut self, terms: &Terms, report: &Report) {
        let open = 0 < report.exposure && report.exposure < terms.amount;
        if open && terms.amount >= TELLING_AMOUNT {
            let goods = [terms.lent_type, terms.lent_step, terms.lent_issue_life];
            let (of, haircut) = match table_haircuts::of(terms.edition, goods, false) {
                Some(haircut) => (OF_LENT, haircut),
                None => (
                    OF_LENT_NOT_ELIGIBLE,
                    table_haircuts::not_eligible(terms.edition),
                ),
            };
            self.meet_figure(terms, of, haircut);
        }
    }

    fn meet_collateral(&mut self, terms: &Terms, item: &Collateral) {
        let goods = [item.goods, item.step, item.issue_life];
        if let Some(haircut) = table_haircuts::of(terms.edition, goods, item.listed == 1) {
            self.meet_figure(terms, OF_COLLATERAL, haircut);
        }
        if item.currency != terms.currency {
            self.meet_figure(terms, OF_COLLATERAL_CURRENCY, CURRENCY);
        }
    }

    fn meet_guarantee(&mut self, terms: &Terms, item: &HeldGuarantee) {
        if item.currency != terms.currency {
            let of = match item.instrument {
                GUARANTEE => OF_GUARANTEE_CURRENCY,
                _ => OF_SWAP_CURRENCY,
            };
            self.meet_figure(terms, of, CURRENCY);
        }
    }

    fn meet_figure(&mut self, terms: &Terms, of: u64, haircut: u64) {
        let period = period(of, terms.kind, terms.interval);
        if DAILY.contains(&period) {
            let cell = [terms.edition, of, period, haircut, terms.kind];
            self.daily.meet(&cell);
        } else if NEXT.contains(&period) && haircut > 0 {
            self.next.meet(&[terms.edition, of, period, haircut]);
        }
    }
}

/// Whether a millionth more or less shows in an item's value. A mismatch of terms
/// may round it away.
fn tells(terms: &Terms, amount: u64, residual_term: u64, outcome: &Outcome) -> bool {
    amount >= TELLING_AMOUNT && residual_term >= terms.residual_term && outcome.value() > 0
}

fn period(of: u64, kind: u64, interval: u64) -> u64 {
    match of {
        OF_GUARANTEE_CURRENCY | OF_SWAP_CURRENCY => periods::of_guarantees(interval),
        _ => periods::of_deal(kind, interval),
    }
}

/// Edition, use and haircut.
fn figures() -> impl Iterator<Item = [u64; 3]> {
    let uses = |edition| USES.map(|of| [edition, of]);
    EDITIONS
        .into_iter()
        .flat_map(uses)
        .flat_map(|[edition, of]| {
            let haircuts = match of {
                OF_COLLATERAL | OF_LENT => Vec::from_iter(table_haircuts::all(edition)),
                OF_LENT_NOT_ELIGIBLE => vec![table_haircuts::not_eligible(edition)],
                _ => vec![CURRENCY],
            };
            haircuts
                .into_iter()
                .map(move |haircut| [edition, of, haircut])
        })
}

/// Kinds whose deals can have this period: the daily one is the shortest.
fn kinds(of: u64, wanted: u64) -> impl Iterator<Item = u64> {
    (1..=3).filter(move |kind| period(of, *kind, 1) <= wanted)
}

fn daily() -> impl Iterator<Item = Cell> {
    let periods = |[edition, of, haircut]: [u64; 3]| {
        DAILY.into_iter().flat_map(move |period| {
            kinds(of, period).map(move |kind| cell(&[edition, of, period, haircut, kind]))
        })
    };
    figures().flat_map(periods)
}

/// A haircut of 0 is 0 in every row, so that it tells none from another.
fn next() -> impl Iterator<Item = Cell> {
    let periods = |[edition, of, haircut]: [u64; 3]| {
        let met = NEXT
            .into_iter()
            .filter(move |period| kinds(of, *period).count() > 0);
        met.map(move |period| cell(&[edition, of, period, haircut]))
    };
    let figures = figures().filter(|[_, _, haircut]| *haircut > 0);
    figures.flat_map(periods)
}

#[cfg(test)]
mod tests {
    use super::*;
    use crate::deal::{deal, record};
    use crate::held::WITHOUT_CONDITION;
    use crate::random::Random;
    use crate::revalued::revalue;

    #[test]
    fn every_figure_is_listed() {
        let stored = Stored::new();
        // Haircuts of goods under each edition; collateral or lent; the rest.
        let haircuts = 13 + 13 + 14;
        // 5 by kind 1, 10 by two kinds, 20 by three; of guarantees and of swaps 10 and
        // 20.
        assert_eq!(
            stored.daily.all(),
            (2 * haircuts + 2 * 3) * (1 + 2 + 3) + 2 * 3 * 2 * 3
        );
        // Without 0; 6 and 9 are no periods of guarantees.
        assert_eq!(
            stored.next.all(),
            (2 * (haircuts - 3) + 2 * 3) * 7 + 2 * 3 * 5
        );
    }

    fn met(record: &Record, report: &Report) -> Vec<Cell> {
        let mut stored = Stored::new();
        stored.meet(record, report);
        let met = stored.families().map(|cells| {
            assert_eq!(cells.unlisted().count(), 0);
            let met = cells.counts().filter(|(_, count)| *count > 0);
            Vec::from_iter(met.map(|(cell, _)| *cell))
        });
        met.concat()
    }

    fn reported(record: &Record) -> Report {
        hadlephoga::report(record).expect("an accepted deal")
    }

    /// Records of books of revalued deals.
    fn records() -> impl Iterator<Item = Record> {
        (0..300).map(|number| {
            let random = &mut Random::new(67, number);
            let mut lines = deal(random, number % 3 + 1);
            revalue(random, &mut lines);
            record(&lines)
        })
    }

    /// The report of a deal, and the figures that are met in it, of these uses.
    fn figures_met(record: &Record, uses: &[u64]) -> (Report, Vec<u64>) {
        let report = reported(record);
        let met = met(record, &report).into_iter();
        let met = met.filter(|cell| uses.contains(&cell[1]));
        let figures = met.map(|cell| periods::scaled(cell[3], cell[2])).collect();
        (report, figures)
    }

    /// The amount less these haircuts, rounded down.
    fn left(amount: u64, haircuts: u64) -> u64 {
        (u128::from(amount) * u128::from(1_000_000 - haircuts) / 1_000_000) as u64
    }

    /// The value comes from these haircuts, and a millionth off gives another.
    fn assert_told(value: u64, amount: u64, haircuts: u64) {
        assert_eq!(value, left(amount, haircuts));
        assert!(left(amount, haircuts - 1) > value);
        assert!(left(amount, haircuts + 1) < value);
    }

    #[test]
    fn collateral_that_is_met_tells() {
        let mut told = 0;
        for record in records() {
            let terms = record.terms;
            for item in &record.collateral[..record.collateral_count as usize] {
                let alone = Record::new(terms, &[*item], &[]);
                let uses = [OF_COLLATERAL, OF_COLLATERAL_CURRENCY];
                let (report, figures) = figures_met(&alone, &uses);
                let haircuts: u64 = figures.iter().sum();
                // One of two is not met where it is 0 next to a daily period.
                let all = 1 + usize::from(item.currency != terms.currency);
                if figures.len() == all && haircuts > 0 {
                    told += 1;
                    assert_told(report.collateral[0].value(), item.amount, haircuts);
                }
            }
        }
        assert!(told > 300, "{told}");
    }

    #[test]
    fn guarantees_that_are_met_tell() {
        let mut told = [0; 3];
        for record in records() {
            for item in &record.guarantees[..record.guarantee_count as usize] {
                let alone = Record::new(record.terms, &[], &[*item]);
                let uses = [OF_GUARANTEE_CURRENCY, OF_SWAP_CURRENCY];
                let (report, figures) = figures_met(&alone, &uses);
                for haircut in figures {
                    told[item.instrument as usize] += 1;
                    let amount = Steps::of_guarantee(&record.terms, item).after_cut();
                    assert_told(report.guarantees[0].outcome.value(), amount, haircut);
                }
            }
        }
        assert!(told.iter().all(|told| *told > 30), "{told:?}");
    }

    #[test]
    fn lent_goods_that_are_met_tell() {
        let mut told = 0;
        for record in records() {
            let (report, figures) = figures_met(&record, &[OF_LENT, OF_LENT_NOT_ELIGIBLE]);
            let values = report.collateral.iter().map(|outcome| outcome.value());
            let covered: u64 = values.sum();
            let exposure = |haircut: u64| {
                let factor = u128::from(1_000_000 + haircut);
                let raised = (u128::from(record.terms.amount) * factor).div_ceil(1_000_000) as u64;
                raised.saturating_sub(covered).min(record.terms.amount)
            };
            for haircut in figures.into_iter().filter(|haircut| *haircut > 0) {
                told += 1;
                assert_eq!(report.exposure, exposure(haircut));
                assert!(exposure(haircut - 1) < report.exposure);
                assert!(exposure(haircut + 1) > report.exposure);
            }
        }
        assert!(told > 100, "{told}");
    }

    /// A million in sovereign debt is lent, against sovereign debt and a guarantee of as
    /// much in another currency.
    fn small() -> Record {
        let terms = [1_000_000, 3, 4, 0, 978, 3, 1, 90, 2, 1, 360, 2];
        let item = [1_000_000, 2, 2, 361, 840, 90, 90, 1, 1, 1, 0];
        let guarantee = [1_000_000, 1, 1, 0, 840, 90, 90, 1, 1, 1, GUARANTEE];
        Record::new(
            Terms::from_numbers(&terms),
            &[Collateral::from_numbers(&item)],
            &[HeldGuarantee::from_numbers(&guarantee)],
        )
    }

    #[test]
    fn each_use_is_met() {
        let mut deal = small();
        let figures = |deal: &Record| met(deal, &reported(deal));
        let with = |of, period, haircut, kind| cell(&[2, of, period, haircut, kind]);
        assert_eq!(
            figures(&deal),
            [
                with(OF_COLLATERAL, 20, 30_000, 3),
                with(OF_LENT, 20, 5_000, 3),
                with(OF_COLLATERAL_CURRENCY, 20, CURRENCY, 3),
                with(OF_GUARANTEE_CURRENCY, 10, CURRENCY, 3),
            ]
        );
        // Unrated bank debt, which nothing makes eligible where it is lent.
        [deal.terms.lent_type, deal.terms.lent_step] = [4, 0];
        deal.terms.interval = 2;
        assert_eq!(
            figures(&deal),
            [
                with(OF_COLLATERAL, 21, 30_000, 0),
                with(OF_LENT_NOT_ELIGIBLE, 21, 250_000, 0),
                with(OF_COLLATERAL_CURRENCY, 21, CURRENCY, 0),
                with(OF_GUARANTEE_CURRENCY, 11, CURRENCY, 0),
            ]
        );
        deal.terms.interval = 4;
        assert_eq!(figures(&deal), [[0; 7]; 0]);
    }

    #[test]
    fn what_does_not_tell_is_not_met() {
        let uses = |deal: &Record| {
            let met = met(deal, &reported(deal)).into_iter();
            Vec::from_iter(met.map(|cell| cell[1]))
        };
        let all = [
            OF_COLLATERAL,
            OF_LENT,
            OF_COLLATERAL_CURRENCY,
            OF_GUARANTEE_CURRENCY,
        ];
        assert_eq!(uses(&small()), all);
        let collateral = |change: fn(&mut Collateral)| {
            let mut deal = small();
            change(&mut deal.collateral[0]);
            uses(&deal)
        };
        let without_items = [OF_LENT, OF_GUARANTEE_CURRENCY];
        assert_eq!(collateral(|item| item.amount -= 1), without_items);
        assert_eq!(collateral(|item| item.lawful = 0), [OF_GUARANTEE_CURRENCY]);
        // All of the exposure is covered.
        assert_eq!(
            collateral(|item| item.amount *= 2),
            [OF_COLLATERAL, OF_COLLATERAL_CURRENCY, OF_GUARANTEE_CURRENCY]
        );
        let in_currency = [OF_COLLATERAL, OF_LENT, OF_GUARANTEE_CURRENCY];
        assert_eq!(collateral(|item| item.currency = 978), in_currency);
        let mut mismatched = small();
        mismatched.terms.residual_term = 1800;
        mismatched.collateral[0].residual_term = 1799;
        mismatched.guarantees[0].residual_term = 1799;
        mismatched.collateral[0].original_term = 1799;
        mismatched.guarantees[0].original_term = 1799;
        assert_eq!(uses(&mismatched), [OF_LENT]);
        let guarantee = |change: fn(&mut HeldGuarantee)| {
            let mut deal = small();
            change(&mut deal.guarantees[0]);
            uses(&deal)
        };
        assert_eq!(guarantee(|item| item.amount -= 1), all[..3]);
        assert_eq!(guarantee(|item| item.direct = 0), all[..3]);
        assert_eq!(guarantee(|item| item.currency = 978), all[..3]);
        // What the cut leaves of a million is less.
        let without = guarantee(|item| item.instrument = WITHOUT_CONDITION);
        assert_eq!(without, all[..3]);
        let mut smaller = small();
        smaller.terms.amount -= 1;
        smaller.collateral[0].amount /= 2;
        assert_eq!(uses(&smaller), [OF_GUARANTEE_CURRENCY]);
    }
}
