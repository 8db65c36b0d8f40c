//! Risk weights of the parties to a deal or a netting set by the tables of its
//! edition, with the floor of the sovereign's weight where the edition has it (02:
//! L5, L6, L9; CRE20.11, CRE20.17).

use crate::edition;
use crate::netting::NettingSet;
use crate::record::{Guarantee, Terms};
use crate::tables::{BANK, CORPORATE, SOVEREIGN};

/// Weight of the counterparty of an accepted deal.
pub fn counterparty_weight(terms: &Terms) -> u64 {
    weight_of(
        [terms.class, terms.step, terms.sovereign_step],
        terms.edition,
    )
}

/// Weight of the counterparty of an accepted netting set.
pub fn set_weight(set: &NettingSet) -> u64 {
    weight_of([set.class, set.step, set.sovereign_step], set.table)
}

/// Weight of a counterparty by class, step and sovereign's step.
fn weight_of([class, step, sovereign_step]: [u64; 3], edition: u64) -> u64 {
    let own = edition::tables(edition).risk_weight(class, step);
    match (class, step) {
        (BANK | CORPORATE, 0) => own.max(floor(sovereign_step, edition)),
        _ => own,
    }
}

/// Weight of the provider of a guarantee or swap in an accepted deal of the
/// edition. An unrated other entity has no floor: ground 28 leaves it out in any
/// case.
pub fn provider_weight(item: &Guarantee, edition: u64) -> u64 {
    let own = edition::tables(edition).risk_weight(item.class, item.step);
    match (item.class, item.step) {
        (BANK, 0) => own.max(floor(item.sovereign_step, edition)),
        _ => own,
    }
}

/// Least weight of an unrated party. A sovereign at step 0 is unrated and weighs
/// 100: no step means that there is no floor.
fn floor(sovereign_step: u64, edition: u64) -> u64 {
    if edition::has_floor(edition) {
        edition::tables(edition).risk_weight(SOVEREIGN, sovereign_step)
    } else {
        0
    }
}

#[cfg(test)]
mod tests {
    use super::*;

    /// Class, step and weights by the tables of 2019 and of 2023 of the parties
    /// that no floor reaches: rated ones, sovereigns and retail.
    const WITHOUT_FLOOR: [(u64, u64, [u64; 2]); 20] = [
        (1, 0, [100, 100]),
        (1, 1, [0, 0]),
        (1, 2, [20, 20]),
        (1, 3, [50, 50]),
        (1, 4, [100, 100]),
        (1, 5, [100, 100]),
        (1, 6, [150, 150]),
        (2, 1, [20, 20]),
        (2, 2, [50, 30]),
        (2, 3, [50, 50]),
        (2, 4, [100, 100]),
        (2, 5, [100, 100]),
        (2, 6, [150, 150]),
        (3, 1, [20, 20]),
        (3, 2, [50, 50]),
        (3, 3, [100, 75]),
        (3, 4, [100, 100]),
        (3, 5, [150, 150]),
        (3, 6, [150, 150]),
        (4, 0, [75, 75]),
    ];

    fn counterparty(class: u64, step: u64, sovereign_step: u64, edition: u64) -> u64 {
        counterparty_weight(&Terms {
            class,
            step,
            sovereign_step,
            edition,
            ..Terms::default()
        })
    }

    fn provider(class: u64, step: u64, sovereign_step: u64, edition: u64) -> u64 {
        let item = Guarantee {
            class,
            step,
            sovereign_step,
            ..Guarantee::default()
        };
        provider_weight(&item, edition)
    }

    #[test]
    fn rated_parties_sovereigns_and_retail_have_no_floor() {
        for (class, step, [in_2019, in_2023]) in WITHOUT_FLOOR {
            for sovereign_step in 0..=6 {
                for (edition, weight) in [(1, in_2019), (2, in_2019), (3, in_2023)] {
                    let party = (class, step, sovereign_step, edition);
                    let found = counterparty(class, step, sovereign_step, edition);
                    assert_eq!(found, weight, "{party:?}");
                    if class < 4 {
                        let found = provider(class, step, sovereign_step, edition);
                        assert_eq!(found, weight, "{party:?}");
                    }
                }
            }
        }
    }

    /// Weights of an unrated party for each sovereign's step 0 to 6.
    fn by_sovereign(weight: impl Fn(u64) -> u64) -> [u64; 7] {
        [0, 1, 2, 3, 4, 5, 6].map(weight)
    }

    #[test]
    fn unrated_banks_weigh_no_less_than_their_sovereign() {
        let floored = [100, 50, 50, 50, 100, 100, 150];
        assert_eq!(by_sovereign(|step| counterparty(2, 0, step, 2)), floored);
        assert_eq!(by_sovereign(|step| provider(2, 0, step, 2)), floored);
        assert_eq!(by_sovereign(|step| counterparty(2, 0, step, 1)), [50; 7]);
        assert_eq!(by_sovereign(|step| provider(2, 0, step, 1)), [50; 7]);
    }

    #[test]
    fn unrated_banks_of_edition_3_weigh_as_much_as_the_worst_sovereign() {
        assert_eq!(by_sovereign(|step| counterparty(2, 0, step, 3)), [150; 7]);
        assert_eq!(by_sovereign(|step| provider(2, 0, step, 3)), [150; 7]);
    }

    #[test]
    fn unrated_corporates_weigh_no_less_than_their_sovereign() {
        let floored = [100, 100, 100, 100, 100, 100, 150];
        for edition in [2, 3] {
            let found = by_sovereign(|step| counterparty(3, 0, step, edition));
            assert_eq!(found, floored, "{edition}");
        }
        assert_eq!(by_sovereign(|step| counterparty(3, 0, step, 1)), [100; 7]);
    }

    #[test]
    fn unrated_other_entities_have_no_floor() {
        for edition in [1, 2, 3] {
            let found = by_sovereign(|step| provider(3, 0, step, edition));
            assert_eq!(found, [100; 7]);
        }
    }
}
