//! What the floor of the sovereign's weight does: to the weight of an unrated
//! party under editions 2 and 3, and to a deal that is reported with it and without
//! it under the same tables.

use hadlephoga::{HeldGuarantee, Outcome, Record, Report, Terms};

use crate::cells::{cell, Cells};

const BANK: u64 = 2;
const CORPORATE: u64 = 3;
/// Editions with the floor.
const FLOORED: [u64; 2] = [2, 3];
/// In percent, by step from 0.
const SOVEREIGNS: [u64; 7] = [100, 0, 20, 50, 100, 100, 150];

/// The sovereign's weight beside the party's own.
const LESS: u64 = 1;
const EQUAL: u64 = 2;
const MORE: u64 = 3;

/// Whose floor it is, or what it changes.
const COUNTERPARTY: u64 = 1;
const PROVIDER: u64 = 2;
const CHANGE: u64 = 3;

/// Changes from edition 1 to edition 2.
const GROUND_29_MADE: u64 = 1;
const GROUND_29_UNMADE: u64 = 2;
const ORDER: u64 = 3;
const WEIGHTED_AMOUNT: u64 = 4;

/// Whose floor it is, the class, how a sovereign weighs beside it, and the edition;
/// or a change.
pub fn cells(title: &'static str) -> Cells {
    let mut cells = Vec::new();
    for edition in FLOORED {
        for (whose, class) in [
            (COUNTERPARTY, BANK),
            (COUNTERPARTY, CORPORATE),
            (PROVIDER, BANK),
        ] {
            let beside = (0..=6).map(|step| beside(edition, class, step));
            cells.extend(beside.map(|weighs| cell(&[whose, class, weighs, edition])));
        }
    }
    let changes = (GROUND_29_MADE..=WEIGHTED_AMOUNT).map(|change| cell(&[CHANGE, change]));
    Cells::new(title, cells.into_iter().chain(changes))
}

fn own_weight(edition: u64, class: u64) -> u64 {
    match (class, edition) {
        (BANK, 3) => 150,
        (BANK, _) => 50,
        _ => 100,
    }
}

fn beside(edition: u64, class: u64, sovereign_step: u64) -> u64 {
    match SOVEREIGNS[sovereign_step as usize].cmp(&own_weight(edition, class)) {
        std::cmp::Ordering::Less => LESS,
        std::cmp::Ordering::Equal => EQUAL,
        std::cmp::Ordering::Greater => MORE,
    }
}

/// A counterparty of an accepted deal that bears some of the exposure.
pub fn meet_counterparty(cells: &mut Cells, terms: &Terms) {
    let (edition, class) = (terms.edition, terms.class);
    if FLOORED.contains(&edition) && terms.step == 0 && [BANK, CORPORATE].contains(&class) {
        let beside = beside(edition, class, terms.sovereign_step);
        cells.meet(&[COUNTERPARTY, class, beside, edition]);
    }
}

/// A provider of an accepted deal whose weight counts.
pub fn meet_provider(cells: &mut Cells, terms: &Terms, item: &HeldGuarantee) {
    let edition = terms.edition;
    if FLOORED.contains(&edition) && item.step == 0 && item.class == BANK {
        let beside = beside(edition, BANK, item.sovereign_step);
        cells.meet(&[PROVIDER, BANK, beside, edition]);
    }
}

/// The reports of one deal under edition 1 and under edition 2.
pub fn meet_change(cells: &mut Cells, record: &Record, [without, with]: [&Report; 2]) {
    let covers = without.guarantees.iter().zip(&with.guarantees);
    let covers = covers.take(record.guarantee_count as usize);
    let (mut gains, mut loses) = (false, false);
    for (before, after) in covers {
        match [before.outcome, after.outcome] {
            [Outcome::Valued(_), Outcome::LeftOut { .. }] => cells.meet(&[CHANGE, GROUND_29_MADE]),
            [Outcome::LeftOut { .. }, Outcome::Valued(_)] => {
                cells.meet(&[CHANGE, GROUND_29_UNMADE])
            }
            [Outcome::Valued(_), Outcome::Valued(_)] => {
                gains |= after.portion > before.portion;
                loses |= after.portion < before.portion;
            }
            _ => (),
        }
    }
    if gains && loses {
        cells.meet(&[CHANGE, ORDER]);
    }
    if with.weighted_amount > without.weighted_amount {
        cells.meet(&[CHANGE, WEIGHTED_AMOUNT]);
    }
}

#[cfg(test)]
mod tests {
    use super::*;

    #[test]
    fn every_case_is_listed() {
        // No sovereign weighs more than an unrated bank under edition 3.
        assert_eq!(cells("").all(), 3 * 3 + (2 + 3 + 2) + 4);
    }

    #[test]
    fn the_sovereign_beside_the_party() {
        let of = |edition, class| [0, 1, 2, 3, 4, 5, 6].map(|step| beside(edition, class, step));
        assert_eq!(of(2, BANK), [MORE, LESS, LESS, EQUAL, MORE, MORE, MORE]);
        assert_eq!(of(3, BANK), [LESS, LESS, LESS, LESS, LESS, LESS, EQUAL]);
        for edition in FLOORED {
            let corporate = [EQUAL, LESS, LESS, LESS, EQUAL, EQUAL, MORE];
            assert_eq!(of(edition, CORPORATE), corporate);
        }
    }

    /// A loan of 100 to an unrated bank whose sovereign weighs 150.
    fn reports(providers: &[HeldGuarantee]) -> (Record, [Report; 2]) {
        let numbers = [100, 2, 0, 6, 978, 3, 1, 90, 1, 0, 0, 1];
        let record = Record::new(Terms::from_numbers(&numbers), &[], providers);
        let reports = [1, 2].map(|edition| {
            let mut record = record.clone();
            record.terms.edition = edition;
            hadlephoga::report(&record).expect("an accepted deal")
        });
        (record, reports)
    }

    fn changes(providers: &[HeldGuarantee]) -> Vec<u64> {
        let mut met = cells("");
        let (record, [without, with]) = reports(providers);
        meet_change(&mut met, &record, [&without, &with]);
        let met = met.counts().filter(|(_, count)| *count > 0);
        met.map(|(cell, _)| cell[1]).collect()
    }

    #[test]
    fn changes_of_a_deal() {
        let of = |class, step, sovereign| {
            HeldGuarantee::from_numbers(&[60, class, step, sovereign, 978, 90, 90, 1, 1, 1, 0])
        };
        assert_eq!(changes(&[]), [WEIGHTED_AMOUNT]);
        assert_eq!(changes(&[of(2, 2, 0)]), [GROUND_29_UNMADE, WEIGHTED_AMOUNT]);
        assert_eq!(changes(&[of(1, 1, 0), of(1, 1, 0)]), []);
    }
}
