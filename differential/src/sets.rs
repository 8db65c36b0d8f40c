//! Random netting sets, each made from a seed, its number and its place alone.

use reference::NettingSet;

use crate::disagreeing::disagreeing;
use crate::draft::{cash, side, Draft};
use crate::furnished::two_wrong;
use crate::random::Random;
use crate::received::not_eligible;
use crate::set::{numbers, POSITIONS};
use crate::set_bounds::at_bounds;
use crate::set_figures::of_figures;
use crate::set_goods;
use crate::set_nets::of_nets;
use crate::set_sizes::{far_too_many, of_another_length, too_many};
use crate::set_sums::at_the_limit;
use crate::values::AMOUNT_LIMIT;
use crate::wrong::Wrong;
use crate::wrong_sets::one_wrong;

#[derive(Clone, Copy, Debug, PartialEq, Eq, Hash)]
pub enum Kind {
    /// Accepted, of any numbers.
    Any,
    /// Haircuts at every interval, where they show.
    Figures,
    /// Securities and currencies on both sides.
    Nets,
    /// E* at its bounds, with a given fraction.
    Bounds,
    /// Amounts that sum up to the limit or above it.
    Sums,
    /// One entry that is wrong.
    OneWrong,
    /// Two that are, in the set's order of tests.
    TwoWrong,
    /// A second entry of a security that disagrees.
    Disagreeing,
    /// Received goods that are not eligible.
    NotEligible,
    /// Too many positions.
    TooMany,
    /// More than 16 bits can count.
    FarTooMany,
    /// Numbers that are missing or over.
    Lengths,
    /// Any numbers in any place.
    Wild,
}

const KINDS: &[(u64, Kind)] = &[
    (220, Kind::Any),
    (240, Kind::Figures),
    (95, Kind::Nets),
    (80, Kind::Bounds),
    (30, Kind::Sums),
    (130, Kind::OneWrong),
    (90, Kind::TwoWrong),
    (40, Kind::Disagreeing),
    (40, Kind::NotEligible),
    (5, Kind::TooMany),
    (25, Kind::Lengths),
    (5, Kind::Wild),
];

impl Kind {
    pub fn name(self) -> &'static str {
        match self {
            Kind::Any => "any accepted",
            Kind::Figures => "haircuts that show",
            Kind::Nets => "both sides",
            Kind::Bounds => "exposure at its bounds",
            Kind::Sums => "sums at the limit",
            Kind::OneWrong => "one wrong entry",
            Kind::TwoWrong => "two wrong entries",
            Kind::Disagreeing => "securities that disagree",
            Kind::NotEligible => "goods not eligible",
            Kind::TooMany => "too many positions",
            Kind::FarTooMany => "far too many positions",
            Kind::Lengths => "numbers missing or over",
            Kind::Wild => "any numbers",
        }
    }
}

/// What is sent: a set, mostly accepted, and what is wrong with it then.
pub struct Sent {
    pub kind: Kind,
    pub base: Vec<u64>,
    pub wrongs: Vec<Wrong>,
}

/// Sets beside each book.
pub const SETS: u64 = 4;
/// Beside the sequences of books, records and mailed texts.
const STREAM: u64 = 0x006E_6574_7465_6421;

/// Sets of far too many positions take long, so they stand apart.
const APART: u64 = 1024;
const FAR: u64 = 400;

/// The set in this place beside the book of this number.
pub fn sent(seed: u64, number: u64, place: u64) -> Sent {
    let random = &mut Random::new(seed ^ STREAM, number * SETS + place);
    let kind = match (number % APART, place) {
        (FAR, 0) => Kind::FarTooMany,
        _ => random.weighted(KINDS),
    };
    let whole = |set: NettingSet| (numbers(&set), Vec::new());
    let (base, wrongs) = match kind {
        Kind::Any => whole(any_set(random)),
        Kind::Figures => whole(of_figures(random)),
        Kind::Nets => whole(of_nets(random)),
        Kind::Bounds => whole(at_bounds(random)),
        Kind::Sums => whole(at_the_limit(random)),
        Kind::OneWrong => one_wrong(random),
        Kind::TwoWrong => two_wrong(random),
        Kind::Disagreeing => disagreeing(random),
        Kind::NotEligible => not_eligible(random),
        Kind::TooMany => too_many(random),
        Kind::FarTooMany => far_too_many(random, number / APART),
        Kind::Lengths => of_another_length(random),
        Kind::Wild => (wild(random), Vec::new()),
    };
    Sent { kind, base, wrongs }
}

/// Each count, the small ones more often.
fn count(random: &mut Random) -> usize {
    match random.percent(60) {
        true => random.index(7),
        false => random.index(POSITIONS + 1),
    }
}

/// From nothing to so much.
pub fn amount(random: &mut Random, most: u64) -> u64 {
    match random.below(20) {
        0 => 0,
        1 => 1,
        _ => random.between(0, most),
    }
}

/// An accepted set.
pub fn any_set(random: &mut Random) -> NettingSet {
    let count = count(random);
    any_of(random, count)
}

/// An accepted set of so many positions.
pub fn any_of(random: &mut Random, count: usize) -> NettingSet {
    any_draft(random, count).set
}

/// The same in the making: its securities and its cash stand there more than once.
pub fn any_draft(random: &mut Random, count: usize) -> Draft {
    let mut draft = Draft::new(random);
    let most = random.pick(&[3, 200, 1_000_000, 1_000_000_000, AMOUNT_LIMIT / 32]);
    let mut pool = Vec::new();
    for _ in 0..random.between(1, 6) {
        let goods = set_goods::any(random);
        let currency = draft.currency(random);
        pool.push(draft.security(random, goods, currency));
        let currency = draft.currency(random);
        pool.extend(random.percent(30).then(|| cash(currency)));
    }
    for _ in 0..count {
        let one = random.pick(&pool);
        let side = side(random, &one);
        draft.put(one, side, amount(random, most));
    }
    draft
}

const WILD: &[u64] = &[
    0,
    1,
    2,
    7,
    1000,
    100_001,
    AMOUNT_LIMIT,
    AMOUNT_LIMIT + 1,
    1 << 32,
    i64::MAX as u64,
    1 << 63,
    u64::MAX - 1,
    u64::MAX,
];

/// Some numbers of an accepted set, or all, made wild.
fn wild(random: &mut Random) -> Vec<u64> {
    let mut sent = numbers(&any_set(random));
    let share = random.pick(&[2, 10, 50, 100]);
    for number in &mut sent {
        if random.percent(share) {
            *number = match random.percent(50) {
                true => random.pick(WILD),
                false => random.number() >> random.below(64),
            };
        }
    }
    sent
}

#[cfg(test)]
mod tests {
    use super::*;
    use crate::sides::Side;
    use std::collections::HashSet;

    #[test]
    fn a_set_comes_from_its_seed_number_and_place() {
        let sets = |seed| {
            let places = (0..100).flat_map(|number| (0..SETS).map(move |place| (number, place)));
            Vec::from_iter(places.map(|(number, place)| sent(seed, number, place).base))
        };
        assert_eq!(sets(5), sets(5));
        assert_ne!(sets(5), sets(6));
        let distinct = HashSet::<Vec<u64>>::from_iter(sets(5));
        assert!(distinct.len() > 350, "{}", distinct.len());
    }

    #[test]
    fn every_kind_occurs() {
        let kinds = (0..5000).map(|number| sent(1, number, 0).kind);
        assert_eq!(HashSet::<Kind>::from_iter(kinds).len(), KINDS.len() + 1);
    }

    #[test]
    fn sets_are_accepted_before_anything_is_wrong() {
        for number in 0..5000 {
            let Sent { kind, base, .. } = sent(2, number, 1);
            if ![Kind::Sums, Kind::Wild].contains(&kind) {
                let refusal = Side::Reference.net_set(&base).refusal;
                assert_eq!(refusal, 0, "{kind:?} {base:?}");
            }
        }
    }

    #[test]
    fn wrongs_are_refused() {
        let mut refusals = HashSet::new();
        for number in 0..5000 {
            let Sent { kind, base, wrongs } = sent(3, number, 2);
            for wrong in &wrongs {
                let refusal = Side::Reference.net_set(&wrong.put(&base)).refusal;
                assert_ne!(refusal, 0, "{kind:?} {base:?} {wrong:?}");
                refusals.insert(refusal);
            }
        }
        assert_eq!(refusals.len(), 10);
    }
}
