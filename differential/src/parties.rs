//! Counterparties and providers by edition, class, step and sovereign's step,
//! each to be met where its weight makes a difference.

use hadlephoga::{HeldGuarantee, Terms};

use crate::cells::{cell, Cells};
use crate::heading::EDITIONS;
use crate::held::GUARANTEE;
use crate::sovereign::right_steps;

const FIRST: u64 = EDITIONS[0];
const BANK: u64 = 2;
const CORPORATE: u64 = 3;
const RETAIL: u64 = 4;

/// A party: class, step and sovereign's step.
type Party = [u64; 3];

pub struct Parties {
    pub counterparties: Cells,
    pub providers: Cells,
    /// Those of swaps.
    pub sellers: Cells,
    pub against: Cells,
}

impl Parties {
    pub fn new() -> Self {
        let by_edition = |parties: Vec<Party>| {
            EDITIONS.into_iter().flat_map(move |edition| {
                let cells = parties.clone().into_iter();
                cells.map(move |[class, step, sovereign]| cell(&[edition, class, step, sovereign]))
            })
        };
        Parties {
            counterparties: Cells::new(
                "weights of counterparties: edition, class, step, sovereign's step",
                by_edition(of_classes(1..=4).collect()),
            ),
            providers: Cells::new(
                "weights of providers: edition, class, step, sovereign's step",
                by_edition(of_classes(1..=3).collect()),
            ),
            sellers: Cells::new(
                "weights of providers of swaps: edition, class, step, sovereign's step",
                by_edition(of_classes(1..=3).collect()),
            ),
            against: Cells::new(
                "each provider against each counterparty, by edition",
                EDITIONS.into_iter().flat_map(|edition| {
                    pairs(edition).map(move |[one, other]| against(edition, one, other))
                }),
            ),
        }
    }

    pub fn families(&self) -> [&Cells; 4] {
        [
            &self.counterparties,
            &self.providers,
            &self.sellers,
            &self.against,
        ]
    }

    /// A counterparty that bears some of the exposure.
    pub fn counterparty(&mut self, terms: &Terms) {
        let [class, step, sovereign] = counterparty(terms);
        self.counterparties
            .meet(&[terms.edition, class, step, sovereign]);
    }

    /// A provider that covers some of the exposure, or whose weight leaves it out.
    pub fn provider(&mut self, terms: &Terms, item: &HeldGuarantee) {
        let edition = terms.edition;
        let provider = [item.class, item.step, item.sovereign_step];
        let [class, step, sovereign] = provider;
        let cells = match item.instrument {
            GUARANTEE => &mut self.providers,
            _ => &mut self.sellers,
        };
        cells.meet(&[edition, class, step, sovereign]);
        let provider = told_apart(edition, &[BANK], provider);
        let counterparty = told_apart(edition, &[BANK, CORPORATE], counterparty(terms));
        self.against.meet(&against(edition, provider, counterparty));
    }
}

fn counterparty(terms: &Terms) -> Party {
    [terms.class, terms.step, terms.sovereign_step]
}

/// Every party of these classes that is accepted.
pub fn of_classes(classes: std::ops::RangeInclusive<u64>) -> impl Iterator<Item = Party> {
    classes.flat_map(|class| {
        let steps = if class == RETAIL { 0..=0 } else { 0..=6 };
        steps
            .flat_map(move |step| right_steps(class).map(move |sovereign| [class, step, sovereign]))
    })
}

/// The party as far as a pair tells it: the sovereign counts for unrated parties
/// of these classes, where the edition has the floor.
fn told_apart(edition: u64, floored: &[u64], [class, step, sovereign]: Party) -> Party {
    let counts = edition != FIRST && step == 0 && floored.contains(&class);
    [class, step, if counts { sovereign } else { 0 }]
}

/// Every provider and counterparty that the edition tells apart.
fn pairs(edition: u64) -> impl Iterator<Item = [Party; 2]> {
    let distinct = |classes, floored: &[u64]| {
        let parties = of_classes(classes).map(|party| told_apart(edition, floored, party));
        let mut parties = Vec::from_iter(parties);
        parties.sort();
        parties.dedup();
        parties
    };
    let counterparties = distinct(1..=4, &[BANK, CORPORATE]);
    let with = move |provider| {
        let counterparties = counterparties.clone().into_iter();
        counterparties.map(move |counterparty| [provider, counterparty])
    };
    distinct(1..=3, &[BANK]).into_iter().flat_map(with)
}

fn against(edition: u64, provider: Party, counterparty: Party) -> crate::cells::Cell {
    let [class, step, sovereign] = provider;
    let [other_class, other_step, other_sovereign] = counterparty;
    [
        edition,
        class,
        step,
        sovereign,
        other_class,
        other_step,
        other_sovereign,
    ]
}

#[cfg(test)]
mod tests {
    use super::*;

    #[test]
    fn every_party_and_pair_is_listed() {
        let parties = Parties::new();
        // Sovereigns at seven steps, two classes at seven steps with seven of
        // their sovereign's, retail.
        assert_eq!(parties.counterparties.all(), 3 * (7 + 2 * 7 * 7 + 1));
        assert_eq!(parties.providers.all(), 3 * (7 + 2 * 7 * 7));
        assert_eq!(parties.sellers.all(), parties.providers.all());
        // Unrated banks and corporates, unrated banks, seven times where there is a
        // floor.
        assert_eq!(pairs(1).count(), 21 * 22);
        for edition in [2, 3] {
            assert_eq!(pairs(edition).count(), (20 + 7) * (20 + 2 * 7));
        }
        assert_eq!(parties.against.all(), 21 * 22 + 2 * 27 * 34);
    }

    #[test]
    fn what_tells_parties_apart() {
        assert_eq!(told_apart(2, &[BANK], [2, 0, 5]), [2, 0, 5]);
        assert_eq!(told_apart(1, &[BANK], [2, 0, 5]), [2, 0, 0]);
        assert_eq!(told_apart(2, &[BANK], [2, 1, 5]), [2, 1, 0]);
        assert_eq!(told_apart(2, &[BANK], [3, 0, 5]), [3, 0, 0]);
    }
}
