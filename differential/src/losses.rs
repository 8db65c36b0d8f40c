//! What items that are valued lose, under each edition and with each kind of deal:
//! which steps take something, how a step is rounded, what leaves nothing, and amounts
//! beside the deal's.

use hadlephoga::{Outcome, Valuation};

use crate::cells::Cells;
use crate::held::{INSTRUMENTS, WITHOUT_CONDITION};
use crate::items::{by_deal, Item, Items, COLLATERAL, SORTS};
use crate::steps::{Share, Steps};

/// Steps, and sums of these for several.
const HAIRCUT: u64 = 1;
const MATURITY: u64 = 2;
const CUT: u64 = 4;

/// How a step is rounded. What it takes is a whole number; it is more than one, and
/// rounded up; it is less than one, so that the loss comes from rounding alone.
const EXACT: u64 = 1;
const ROUNDED: u64 = 2;
const ROUNDING_ALONE: u64 = 3;

/// What leaves nothing.
const NO_AMOUNT: u64 = 1;
const CUT_OF_ONE: u64 = 2;
const DEAL_WITHOUT_AMOUNT: u64 = 3;
/// Haircuts that reach the whole, and one that is rounded.
const WHOLE_HAIRCUT: u64 = 4;
const ROUNDED_HAIRCUT: u64 = 5;
/// The maturity takes all, where the haircut took nothing and where it took some.
const MATURITY_ALONE: u64 = 6;
const MATURITY_BEHIND_HAIRCUT: u64 = 7;

/// The item's amount beside the deal's.
const BELOW: u64 = 1;
const EQUAL: u64 = 2;
const ABOVE: u64 = 3;

pub struct Losses {
    subsets: Cells,
    roundings: Cells,
    ends: Cells,
    sizes: Cells,
}

impl Losses {
    pub fn new() -> Self {
        let cases = |of: fn(u64) -> Vec<u64>| {
            let cases = SORTS.into_iter();
            cases.flat_map(move |sort| of(sort).into_iter().map(move |case| [sort, case]))
        };
        let roundings = cases(steps).flat_map(|[sort, step]| {
            [EXACT, ROUNDED, ROUNDING_ALONE].map(|rounding| [sort, step, rounding])
        });
        let sizes = INSTRUMENTS.map(|of| [BELOW, EQUAL, ABOVE].map(|size| [of, size]));
        Losses {
            subsets: Cells::new(
                "losses of one item: edition, kind, sort, steps that take",
                by_deal(cases(subsets)),
            ),
            roundings: Cells::new(
                "roundings of losses: edition, kind, sort, step, exact or not",
                by_deal(roundings),
            ),
            ends: Cells::new(
                "what leaves no value: edition, kind, sort, which",
                by_deal(cases(ends)),
            ),
            sizes: Cells::new(
                "losses below, at, above the deal's amount: edition, kind, which",
                by_deal(sizes.into_iter().flatten()),
            ),
        }
    }

    pub fn families(&self) -> [&Cells; 4] {
        [&self.subsets, &self.roundings, &self.ends, &self.sizes]
    }

    /// The report of an accepted deal.
    pub fn meet(&mut self, items: &Items) {
        for item in items.lists.iter().flatten() {
            if let Outcome::Valued(valuation) = item.outcome {
                self.meet_valued(items.deal, item, &valuation);
            }
        }
    }

    fn meet_valued(&mut self, [edition, kind]: [u64; 2], item: &Item, valuation: &Valuation) {
        let of = |cases: &[u64]| [&[edition, kind, item.sort], cases].concat();
        if valuation.value > 0 {
            self.subsets.meet(&of(&[subset(valuation)]));
        }
        if let Some(end) = end(&item.steps) {
            self.ends.meet(&of(&[end]));
        }
        for (step, rounding) in rounded(&item.steps, valuation) {
            self.roundings.meet(&of(&[step, rounding]));
        }
        if item.sort != COLLATERAL && item.steps.sent > 0 {
            self.sizes.meet(&of(&[size(&item.steps)]));
        }
    }
}

/// The steps that can take something of a sort of item.
fn steps(sort: u64) -> Vec<u64> {
    match sort {
        WITHOUT_CONDITION => vec![HAIRCUT, MATURITY, CUT],
        _ => vec![HAIRCUT, MATURITY],
    }
}

/// A cut takes something of every amount.
fn subsets(sort: u64) -> Vec<u64> {
    let always = match sort {
        WITHOUT_CONDITION => CUT,
        _ => 0,
    };
    [0, HAIRCUT, MATURITY, HAIRCUT + MATURITY]
        .map(|of| of + always)
        .to_vec()
}

/// No haircut of a currency reaches the whole.
fn ends(sort: u64) -> Vec<u64> {
    let own = match sort {
        WITHOUT_CONDITION => vec![CUT_OF_ONE, DEAL_WITHOUT_AMOUNT],
        COLLATERAL => vec![WHOLE_HAIRCUT],
        _ => vec![],
    };
    let all = [
        NO_AMOUNT,
        ROUNDED_HAIRCUT,
        MATURITY_ALONE,
        MATURITY_BEHIND_HAIRCUT,
    ];
    [&own[..], &all].concat()
}

fn subset(valuation: &Valuation) -> u64 {
    [
        (valuation.haircut_loss, HAIRCUT),
        (valuation.maturity_loss, MATURITY),
        (valuation.cut_loss, CUT),
    ]
    .into_iter()
    .filter_map(|(loss, step)| (loss > 0).then_some(step))
    .sum()
}

/// What made the value 0, if it is.
fn end(steps: &Steps) -> Option<u64> {
    if steps.value() > 0 {
        return None;
    }
    Some(match [steps.after_cut(), steps.after_haircut()] {
        _ if steps.sent == 0 => NO_AMOUNT,
        [0, _] if steps.deal == 0 => DEAL_WITHOUT_AMOUNT,
        [0, _] => CUT_OF_ONE,
        [_, 0] if steps.haircut.part == 0 => WHOLE_HAIRCUT,
        [_, 0] => ROUNDED_HAIRCUT,
        [before, after] if before == after => MATURITY_ALONE,
        _ => MATURITY_BEHIND_HAIRCUT,
    })
}

/// Each step that leaves a part of what it finds, and how it is rounded.
fn rounded(steps: &Steps, valuation: &Valuation) -> Vec<(u64, u64)> {
    let mut taken = vec![
        (
            HAIRCUT,
            rounding(steps.haircut, steps.after_cut(), valuation.haircut_loss),
        ),
        (
            MATURITY,
            rounding(
                steps.maturity,
                steps.after_haircut(),
                valuation.maturity_loss,
            ),
        ),
    ];
    if steps.is_cut {
        let rounding = rounding(Share::CUT, steps.least(), valuation.cut_loss);
        taken.push((CUT, rounding));
    }
    let taken = taken.into_iter();
    taken
        .filter_map(|(step, rounding)| Some((step, rounding?)))
        .collect()
}

fn rounding(share: Share, found: u64, loss: u64) -> Option<u64> {
    let exact = found * (share.whole - share.part);
    match exact % share.whole {
        _ if exact == 0 || share.part == 0 => None,
        0 => Some(EXACT),
        _ if loss == 1 => Some(ROUNDING_ALONE),
        _ => Some(ROUNDED),
    }
}

fn size(steps: &Steps) -> u64 {
    match steps.sent.cmp(&steps.deal) {
        std::cmp::Ordering::Less => BELOW,
        std::cmp::Ordering::Equal => EQUAL,
        std::cmp::Ordering::Greater => ABOVE,
    }
}

#[cfg(test)]
mod tests {
    use super::*;
    use crate::held::{GUARANTEE, WITH_CONDITION};
    use hadlephoga::{Collateral, HeldGuarantee, Record, Terms};

    #[test]
    fn every_case_is_listed() {
        let all = Losses::new().families().map(Cells::all);
        let ends = 4 * 4 + 2 + 1;
        assert_eq!(all, [4 * 4, (4 * 2 + 1) * 3, ends, 3 * 3].map(|of| of * 9));
    }

    /// What is met of a repo for 1,800 days of this amount, with one item.
    fn met(amount: u64, items: (&[Collateral], &[HeldGuarantee])) -> [Vec<[u64; 3]>; 4] {
        let terms = [amount, 3, 6, 0, 978, 1, 156, 1800, 1, 0, 0, 2];
        let record = Record::new(Terms::from_numbers(&terms), items.0, items.1);
        let report = hadlephoga::report(&record).expect("an accepted deal");
        let mut losses = Losses::new();
        losses.meet(&Items::new(&record, &report));
        losses.families().map(|cells| {
            assert_eq!(cells.unlisted().count(), 0);
            let met = cells.counts().filter(|(_, count)| *count > 0);
            let met = met.map(|(cell, _)| [cell[2], cell[3], cell[4]]);
            met.collect()
        })
    }

    fn guarantee(amount: u64, currency: u64, term: u64, instrument: u64) -> [Vec<[u64; 3]>; 4] {
        let item = [amount, 1, 1, 0, currency, term, 1800, 1, 1, 1, instrument];
        met(1000, (&[], &[HeldGuarantee::from_numbers(&item)]))
    }

    /// Haircuts here are four times those of the table.
    fn collateral(amount: u64, goods: u64, currency: u64, term: u64) -> [Vec<[u64; 3]>; 4] {
        let item = [amount, goods, 0, 0, currency, term, 1800, 1, 1, 1, 0];
        met(1000, (&[Collateral::from_numbers(&item)], &[]))
    }

    #[test]
    fn losses_and_their_roundings() {
        let of = |sort, step, rounding| [sort, step, rounding];
        let [subsets, roundings, ends, sizes] = collateral(1_000, 1, 978, 1800);
        assert_eq!(subsets, [[COLLATERAL, 0, 0]]);
        assert!(roundings.is_empty() && ends.is_empty() && sizes.is_empty());
        // 680 are left of 1,000; 322 of these.
        let [subsets, roundings, ..] = collateral(1_000, 1, 840, 900);
        assert_eq!(subsets, [[COLLATERAL, HAIRCUT + MATURITY, 0]]);
        let due = [
            of(COLLATERAL, HAIRCUT, EXACT),
            of(COLLATERAL, MATURITY, ROUNDED),
        ];
        assert_eq!(roundings, due);
        let [_, roundings, ..] = collateral(2, 1, 840, 1799);
        let due = [
            of(COLLATERAL, HAIRCUT, ROUNDING_ALONE),
            of(COLLATERAL, MATURITY, ROUNDING_ALONE),
        ];
        assert_eq!(roundings, due);
        let [subsets, roundings, _, sizes] = guarantee(1000, 978, 1800, WITHOUT_CONDITION);
        assert_eq!(subsets, [[WITHOUT_CONDITION, CUT, 0]]);
        assert_eq!(roundings, [of(WITHOUT_CONDITION, CUT, EXACT)]);
        assert_eq!(sizes, [[WITHOUT_CONDITION, EQUAL, 0]]);
        let [_, roundings, _, sizes] = guarantee(2, 978, 1800, WITHOUT_CONDITION);
        assert_eq!(roundings, [of(WITHOUT_CONDITION, CUT, ROUNDING_ALONE)]);
        assert_eq!(sizes, [[WITHOUT_CONDITION, BELOW, 0]]);
        let [_, roundings, _, sizes] = guarantee(1001, 978, 1800, WITH_CONDITION);
        assert!(roundings.is_empty());
        assert_eq!(sizes, [[WITH_CONDITION, ABOVE, 0]]);
    }

    #[test]
    fn what_leaves_nothing() {
        let end = |[subsets, _, ends, _]: [Vec<[u64; 3]>; 4]| {
            assert!(subsets.is_empty());
            ends.first().map(|end| end[1])
        };
        assert_eq!(end(collateral(0, 8, 840, 91)), Some(NO_AMOUNT));
        assert_eq!(end(collateral(900, 8, 978, 91)), Some(WHOLE_HAIRCUT));
        assert_eq!(end(collateral(1, 1, 840, 91)), Some(ROUNDED_HAIRCUT));
        assert_eq!(end(collateral(900, 1, 978, 91)), Some(MATURITY_ALONE));
        let behind = end(collateral(900, 1, 840, 91));
        assert_eq!(behind, Some(MATURITY_BEHIND_HAIRCUT));
        assert_eq!(
            end(guarantee(1, 840, 91, WITHOUT_CONDITION)),
            Some(CUT_OF_ONE)
        );
        let rounded = end(guarantee(1, 840, 91, GUARANTEE));
        assert_eq!(rounded, Some(ROUNDED_HAIRCUT));
        let swap = [9, 1, 1, 0, 840, 91, 1800, 1, 1, 1, WITHOUT_CONDITION];
        let swap = HeldGuarantee::from_numbers(&swap);
        assert_eq!(end(met(0, (&[], &[swap]))), Some(DEAL_WITHOUT_AMOUNT));
    }
}
