//! The steps from an item's amount to its value: the cut of a swap without its
//! condition, the haircut, the maturity. Each leaves a share of what it finds, rounded
//! down, and the rest is its loss.

use hadlephoga::{Collateral, HeldGuarantee, Terms, Valuation};

use crate::held::WITHOUT_CONDITION;
use crate::periods::{of_deal, of_guarantees, scaled};
use crate::table_haircuts::{self, CURRENCY};

/// Haircuts are in millionths.
const WHOLE: u64 = 1_000_000;
/// So many days of a term count for nothing, and none beyond so many.
const THREE_MONTHS: u64 = 90;
const FIVE_YEARS: u64 = 1800;

/// A part of a whole.
#[derive(Clone, Copy, Debug, PartialEq, Eq)]
pub struct Share {
    pub part: u64,
    pub whole: u64,
}

impl Share {
    const ALL: Share = Share { part: 1, whole: 1 };
    pub const CUT: Share = Share {
        part: 60,
        whole: 100,
    };

    /// What it leaves of an amount.
    pub fn of(self, amount: u64) -> u64 {
        amount * self.part / self.whole
    }

    pub fn lost(self, amount: u64) -> u64 {
        amount - self.of(amount)
    }

    fn behind_haircuts(haircuts: u64) -> Self {
        let part = WHOLE.saturating_sub(haircuts);
        Share { part, whole: WHOLE }
    }

    /// Of cover for so many days, where so many are due. What is left out for its
    /// terms has a share too: what it would lose.
    fn behind_terms(days: u64, due: u64) -> Self {
        if days >= due {
            return Share::ALL;
        }
        let [part, whole] = [days, due].map(|of| of.min(FIVE_YEARS).saturating_sub(THREE_MONTHS));
        let whole = whole.max(1);
        Share { part, whole }
    }
}

/// What is taken from an item, if it is not left out.
#[derive(Clone, Copy, Debug)]
pub struct Steps {
    pub sent: u64,
    /// The deal's amount.
    pub deal: u64,
    pub is_cut: bool,
    pub haircut: Share,
    pub maturity: Share,
}

impl Steps {
    pub fn of_collateral(terms: &Terms, item: &Collateral) -> Self {
        let goods = [item.goods, item.step, item.issue_life];
        let own = table_haircuts::of(terms.edition, goods, item.listed == 1);
        let days = of_deal(terms.kind, terms.interval);
        let haircuts = scaled(own.unwrap_or(0), days) + currency(terms, item.currency, days);
        Steps {
            sent: item.amount,
            deal: terms.amount,
            is_cut: false,
            haircut: Share::behind_haircuts(haircuts),
            maturity: Share::behind_terms(item.residual_term, terms.residual_term),
        }
    }

    pub fn of_guarantee(terms: &Terms, item: &HeldGuarantee) -> Self {
        let haircut = currency(terms, item.currency, of_guarantees(terms.interval));
        Steps {
            sent: item.amount,
            deal: terms.amount,
            is_cut: item.instrument == WITHOUT_CONDITION,
            haircut: Share::behind_haircuts(haircut),
            maturity: Share::behind_terms(item.residual_term, terms.residual_term),
        }
    }

    /// The smaller of the item's amount and the deal's.
    pub fn least(&self) -> u64 {
        self.sent.min(self.deal)
    }

    pub fn after_cut(&self) -> u64 {
        match self.is_cut {
            true => Share::CUT.of(self.least()),
            false => self.sent,
        }
    }

    pub fn after_haircut(&self) -> u64 {
        self.haircut.of(self.after_cut())
    }

    pub fn value(&self) -> u64 {
        self.maturity.of(self.after_haircut())
    }

    pub fn valuation(&self) -> Valuation {
        Valuation {
            value: self.value(),
            haircut_loss: self.haircut.lost(self.after_cut()),
            maturity_loss: self.maturity.lost(self.after_haircut()),
            cut_loss: self.sent - self.after_cut(),
        }
    }
}

/// The haircut of cover in another currency than the deal's.
fn currency(terms: &Terms, currency: u64, days: u64) -> u64 {
    match currency == terms.currency {
        true => 0,
        false => scaled(CURRENCY, days),
    }
}

#[cfg(test)]
mod tests {
    use super::*;
    use crate::items::Items;
    use crate::random::Random;
    use crate::records;
    use hadlephoga::{Outcome, Record};

    /// What is worked out here is what the library reports.
    #[test]
    fn losses_are_those_of_the_library() {
        let mut valued = [0; 4];
        for number in 0..3000 {
            let record = Record::from_numbers(&records::record(&mut Random::new(89, number)));
            let Ok(report) = hadlephoga::report(&record) else {
                continue;
            };
            for item in Items::new(&record, &report).lists.iter().flatten() {
                if let Outcome::Valued(valuation) = item.outcome {
                    assert_eq!(item.steps.valuation(), valuation, "{:?}", item.steps);
                    assert_eq!(valuation.amount(), item.steps.sent);
                    valued[item.sort as usize] += 1;
                }
            }
        }
        assert!(valued.iter().all(|count| *count > 300), "{valued:?}");
    }

    #[test]
    fn one_step_behind_the_other() {
        let steps = Steps {
            sent: 1500,
            deal: 1000,
            is_cut: true,
            haircut: Share::behind_haircuts(250_000),
            maturity: Share::behind_terms(660, 1800),
        };
        let Valuation {
            value,
            haircut_loss,
            maturity_loss,
            cut_loss,
        } = steps.valuation();
        assert_eq!([cut_loss, haircut_loss, maturity_loss], [900, 150, 300]);
        assert_eq!(value, 150);
    }

    #[test]
    fn shares_that_leave_nothing_or_all() {
        assert_eq!(Share::behind_haircuts(1_000_001).lost(7), 7);
        assert_eq!(Share::behind_terms(90, 90), Share::ALL);
        assert_eq!(Share::behind_terms(36_000, 100_000).lost(7), 0);
        for days in [1, 89, 90] {
            assert_eq!(Share::behind_terms(days, 91).lost(7), 7);
            assert_eq!(Share::behind_terms(days, days + 1).lost(7), 7);
        }
    }
}
