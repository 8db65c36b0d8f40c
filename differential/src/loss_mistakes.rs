//! What could be mistaken of the losses and of what is left out, though the value is
//! right: each mistake is to be met where it would change a number of the report, of
//! each sort of item, under each edition and with each kind of deal.

use hadlephoga::Outcome;

use crate::cells::Cells;
use crate::held::WITHOUT_CONDITION;
use crate::items::{by_deal, losses, parts, Items, Parts, SORTS};
use crate::steps::{Share, Steps};

/// What is done in place of what is due.
#[derive(Clone, Copy, PartialEq, Eq, Debug)]
enum Mistake {
    /// Losses of a valued item exchanged, or counted into one another.
    HaircutForMaturity = 1,
    MaturityInHaircut,
    HaircutInMaturity,
    /// A loss of something else than what its step finds, or of steps in another order.
    MaturityOfSent,
    MaturityFirst,
    /// What the step takes, rounded down.
    HaircutRoundedDown,
    MaturityRoundedDown,
    /// A valued item with something left out.
    ValueLeftOut,
    LossesLeftOut,
    /// Of an item that is left out: nothing said of its amount; its losses too, or its
    /// value alone; a loss in place of it.
    NothingLeftOut,
    LeftOutWithLosses,
    LeftOutByValue,
    LeftOutAsHaircut,
    /// Of all but a swap without the condition.
    Cut,
    /// Of such a swap.
    HaircutForCut,
    MaturityForCut,
    CutInHaircut,
    CutInMaturity,
    CutWithoutAbove,
    CutRoundedDown,
    CutLast,
    HaircutOfSent,
    MaturityOfCut,
    LeftOutBehindCut,
}

use Mistake::*;

const OF_ALL: [Mistake; 13] = [
    HaircutForMaturity,
    MaturityInHaircut,
    HaircutInMaturity,
    MaturityOfSent,
    MaturityFirst,
    HaircutRoundedDown,
    MaturityRoundedDown,
    ValueLeftOut,
    LossesLeftOut,
    NothingLeftOut,
    LeftOutWithLosses,
    LeftOutByValue,
    LeftOutAsHaircut,
];
const OF_WHOLE: [Mistake; 1] = [Cut];
const OF_CUT: [Mistake; 10] = [
    HaircutForCut,
    MaturityForCut,
    CutInHaircut,
    CutInMaturity,
    CutWithoutAbove,
    CutRoundedDown,
    CutLast,
    HaircutOfSent,
    MaturityOfCut,
    LeftOutBehindCut,
];

fn mistakes(sort: u64) -> impl Iterator<Item = Mistake> {
    let own: &[Mistake] = match sort {
        WITHOUT_CONDITION => &OF_CUT,
        _ => &OF_WHOLE,
    };
    OF_ALL.iter().chain(own).copied()
}

pub fn cells(title: &'static str) -> Cells {
    let cases = SORTS.into_iter();
    let cases = cases.flat_map(|sort| mistakes(sort).map(move |mistake| [sort, mistake as u64]));
    Cells::new(title, by_deal(cases))
}

/// The report of an accepted deal.
pub fn meet(cells: &mut Cells, items: &Items) {
    let [edition, kind] = items.deal;
    for item in items.lists.iter().flatten() {
        let due = parts(&item.outcome);
        for mistake in mistakes(item.sort) {
            let mistaken = match item.outcome {
                Outcome::Valued(_) => valued(&item.steps, mistake),
                Outcome::LeftOut { .. } => left_out(&item.steps, mistake),
            };
            if mistaken.is_some_and(|mistaken| mistaken != due) {
                cells.meet(&[edition, kind, item.sort, mistake as u64]);
            }
        }
    }
}

/// None of a mistake that is made of what is left out.
fn valued(steps: &Steps, mistake: Mistake) -> Option<Parts> {
    let valuation = steps.valuation();
    let [haircut, maturity, cut, _] = losses(&valuation);
    Some(match mistake {
        HaircutForMaturity => [maturity, haircut, cut, 0],
        MaturityInHaircut => [haircut + maturity, 0, cut, 0],
        HaircutInMaturity => [0, haircut + maturity, cut, 0],
        MaturityOfSent => [haircut, steps.maturity.lost(steps.sent), cut, 0],
        MaturityFirst => {
            let [maturity, haircut] = in_turn(steps.after_cut(), steps.maturity, steps.haircut);
            [haircut, maturity, cut, 0]
        }
        HaircutRoundedDown => {
            let haircut = rounded_down(steps.haircut, steps.after_cut());
            [haircut, maturity, cut, 0]
        }
        MaturityRoundedDown => {
            let maturity = rounded_down(steps.maturity, steps.after_haircut());
            [haircut, maturity, cut, 0]
        }
        ValueLeftOut => [haircut, maturity, cut, valuation.value],
        LossesLeftOut => [haircut, maturity, cut, valuation.losses()],
        Cut => {
            let cut = steps.sent - Share::CUT.of(steps.least());
            [haircut, maturity, cut, 0]
        }
        _ => return valued_swap(steps, mistake),
    })
}

/// The same of a swap that is cut.
fn valued_swap(steps: &Steps, mistake: Mistake) -> Option<Parts> {
    let [haircut, maturity, cut, _] = losses(&steps.valuation());
    let least = steps.least();
    Some(match mistake {
        HaircutForCut => [cut, maturity, haircut, 0],
        MaturityForCut => [haircut, cut, maturity, 0],
        CutInHaircut => [haircut + cut, maturity, 0, 0],
        CutInMaturity => [haircut, maturity + cut, 0, 0],
        CutWithoutAbove => [haircut, maturity, least - steps.after_cut(), 0],
        CutRoundedDown => {
            let cut = steps.sent - least + rounded_down(Share::CUT, least);
            [haircut, maturity, cut, 0]
        }
        CutLast => {
            let [haircut, maturity] = in_turn(steps.sent, steps.haircut, steps.maturity);
            let found = steps.sent - haircut - maturity;
            let cut = found - Share::CUT.of(found.min(steps.deal));
            [haircut, maturity, cut, 0]
        }
        HaircutOfSent => [steps.haircut.lost(steps.sent), maturity, cut, 0],
        MaturityOfCut => [haircut, steps.maturity.lost(steps.after_cut()), cut, 0],
        _ => return None,
    })
}

/// None of a mistake that is made of what is valued.
fn left_out(steps: &Steps, mistake: Mistake) -> Option<Parts> {
    let valuation = steps.valuation();
    match mistake {
        NothingLeftOut => Some([0; 4]),
        LeftOutWithLosses => {
            let [haircut, maturity, cut, _] = losses(&valuation);
            Some([haircut, maturity, cut, steps.sent])
        }
        LeftOutByValue => Some([0, 0, 0, valuation.value]),
        LeftOutAsHaircut => Some([steps.sent, 0, 0, 0]),
        LeftOutBehindCut => Some([0, 0, 0, steps.after_cut()]),
        _ => None,
    }
}

/// The losses of two steps, one behind the other.
fn in_turn(amount: u64, first: Share, second: Share) -> [u64; 2] {
    [first.lost(amount), second.lost(first.of(amount))]
}

fn rounded_down(share: Share, amount: u64) -> u64 {
    amount * (share.whole - share.part) / share.whole
}

#[cfg(test)]
mod tests {
    use super::*;
    use crate::held::WITH_CONDITION;
    use hadlephoga::{HeldGuarantee, Record, Terms};

    #[test]
    fn every_mistake_is_listed() {
        assert_eq!(cells("").all(), 9 * (3 * (13 + 1) + (13 + 10)));
    }

    /// What shows of a loan of 1,000 for 1,800 days with one item.
    fn shown(amount: u64, currency: u64, term: u64, lawful: u64, instrument: u64) -> Vec<u64> {
        let terms = Terms::from_numbers(&[1000, 3, 6, 0, 978, 3, 1, 1800, 1, 0, 0, 1]);
        let item = [
            amount, 1, 1, 0, currency, term, 1800, lawful, 1, 1, instrument,
        ];
        let item = HeldGuarantee::from_numbers(&item);
        let record = Record::new(terms, &[], &[item]);
        let report = hadlephoga::report(&record).expect("an accepted deal");
        let mut met = cells("");
        meet(&mut met, &Items::new(&record, &report));
        assert_eq!(met.unlisted().count(), 0);
        let met = met.counts().filter(|(_, count)| *count > 0);
        met.map(|(cell, _)| cell[3]).collect()
    }

    fn numbers(mistakes: &[Mistake]) -> Vec<u64> {
        mistakes.iter().map(|of| *of as u64).collect()
    }

    #[test]
    fn what_shows_of_valued_items() {
        let whole = shown(1000, 978, 1800, 1, WITH_CONDITION);
        assert_eq!(whole, numbers(&[ValueLeftOut, Cut]));
        // 920 are left, and 435 of these.
        let both = shown(1000, 840, 900, 1, WITH_CONDITION);
        let due = [
            HaircutForMaturity,
            MaturityInHaircut,
            HaircutInMaturity,
            MaturityOfSent,
            MaturityFirst,
            MaturityRoundedDown,
            ValueLeftOut,
            LossesLeftOut,
            Cut,
        ];
        assert_eq!(both, numbers(&due));
        let cut = shown(1001, 978, 1800, 1, WITHOUT_CONDITION);
        let due = [
            ValueLeftOut,
            LossesLeftOut,
            HaircutForCut,
            MaturityForCut,
            CutInHaircut,
            CutInMaturity,
            CutWithoutAbove,
        ];
        assert_eq!(cut, numbers(&due));
        let all = shown(1501, 840, 900, 1, WITHOUT_CONDITION);
        let missing = [HaircutRoundedDown, CutRoundedDown].map(|of| of as u64);
        assert!(OF_CUT[..9]
            .iter()
            .map(|of| *of as u64)
            .filter(|of| !missing.contains(of))
            .all(|of| all.contains(&of)));
        assert!(missing.iter().all(|of| !all.contains(of)));
        let rounded = shown(7, 840, 900, 1, WITHOUT_CONDITION);
        assert!(missing.iter().all(|of| rounded.contains(of)));
    }

    #[test]
    fn what_shows_of_items_left_out() {
        let whole = shown(1000, 978, 1800, 0, WITH_CONDITION);
        assert_eq!(whole, numbers(&[NothingLeftOut, LeftOutAsHaircut]));
        let losing = shown(1000, 978, 900, 0, WITHOUT_CONDITION);
        let due = [
            NothingLeftOut,
            LeftOutWithLosses,
            LeftOutByValue,
            LeftOutAsHaircut,
            LeftOutBehindCut,
        ];
        assert_eq!(losing, numbers(&due));
        assert_eq!(shown(0, 840, 900, 0, WITHOUT_CONDITION), [0; 0]);
    }
}
