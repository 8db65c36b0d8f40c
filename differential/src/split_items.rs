//! Items of collateral as a split finds them: cash that may be split, and others, of which a
//! haircut or a mismatch takes something.

use hadlephoga::{Collateral, Terms};

use crate::random::Random;
use crate::revalued::ELIGIBLE;
use crate::values::DAYS_LIMIT;

pub const CASH: u64 = 1;
/// The shortest term that counts beside a longer deal, and that of protection that does.
const LEAST_TERM: u64 = 91;
const LEAST_ORIGINAL_TERM: u64 = 360;

/// What is recognised, or the ground on which cash without a mismatch may be left out.
pub const RECOGNISED: u64 = 0;
pub const OUTCOMES: [u64; 4] = [RECOGNISED, 21, 22, 23];

/// Items that may not be split: cash in another currency, cash with a mismatch, other goods.
pub const OTHER_CURRENCY: u64 = 1;
pub const MISMATCHED: u64 = 2;
pub const OTHER_GOODS: u64 = 3;
pub const OTHERS: [u64; 3] = [OTHER_CURRENCY, MISMATCHED, OTHER_GOODS];

/// Cash in the deal's currency without a mismatch.
pub fn may_be_split(terms: &Terms, item: &Collateral) -> bool {
    item.goods == CASH
        && item.currency == terms.currency
        && item.residual_term >= terms.residual_term
}

/// The item as such cash, recognised or left out on this ground; what comes behind the ground
/// may apply too.
pub fn as_cash(random: &mut Random, terms: &Terms, item: &Collateral, outcome: u64) -> Collateral {
    let due = terms.residual_term;
    let residual_term = match random.percent(30) {
        true => due,
        false if item.residual_term >= due => item.residual_term,
        false => random.between(due, DAYS_LIMIT),
    };
    let mut behind = |ground| match outcome {
        RECOGNISED => 1,
        _ if ground == outcome => 0,
        _ if ground < outcome => 1,
        _ => u64::from(random.percent(80)),
    };
    Collateral {
        goods: CASH,
        step: 0,
        issue_life: 0,
        currency: terms.currency,
        residual_term,
        original_term: item.original_term.max(residual_term),
        lawful: behind(21),
        unrelated: behind(22),
        unreflected: behind(23),
        ..*item
    }
}

/// The item as one that is recognised and may not be split, in this one way; None where the
/// deal is too short for a mismatch.
pub fn as_other(
    random: &mut Random,
    terms: &Terms,
    item: &Collateral,
    which: u64,
) -> Option<Collateral> {
    let mut other = as_cash(random, terms, item, RECOGNISED);
    match which {
        OTHER_CURRENCY => other.currency = terms.currency % 999 + 1,
        MISMATCHED if terms.residual_term > LEAST_TERM => {
            other.residual_term = random.between(LEAST_TERM, terms.residual_term - 1);
            other.original_term = other.original_term.max(LEAST_ORIGINAL_TERM);
        }
        MISMATCHED => return None,
        _ => {
            // The first of these is cash.
            [other.goods, other.step, other.issue_life] = random.pick(&ELIGIBLE[1..]);
        }
    }
    Some(other)
}

#[cfg(test)]
mod tests {
    use super::*;
    use crate::asked::Reported;
    use crate::entry_laws::ground;
    use crate::sides::Side;
    use crate::values;
    use hadlephoga::Record;

    fn reported(terms: Terms, item: Collateral) -> Reported {
        Side::Proved.report(&Record::new(terms, &[item], &[]).to_numbers())
    }

    #[test]
    fn items_are_what_they_are_made() {
        for number in 0..3000 {
            let random = &mut Random::new(199, number);
            let edition = values::edition(random);
            let terms = values::terms(random, edition);
            let item = values::collateral(random, &terms, 1);
            let outcome = random.pick(&OUTCOMES);
            let cash = as_cash(random, &terms, &item, outcome);
            assert!(may_be_split(&terms, &cash));
            let report = reported(terms, cash);
            assert_eq!((report.0, ground(&report, 0)), (0, outcome));
            let which = random.pick(&OTHERS);
            let Some(other) = as_other(random, &terms, &item, which) else {
                assert!(which == MISMATCHED && terms.residual_term <= LEAST_TERM);
                continue;
            };
            assert!(!may_be_split(&terms, &other));
            let report = reported(terms, other);
            assert_eq!((report.0, ground(&report, 0)), (0, RECOGNISED));
        }
    }
}
