//! Values of fields that opening and adding accept: the edges of every range
//! and of every band, and typical values between them.

use hadlephoga::{Collateral, Guarantee, HeldGuarantee, Swap, Terms};

use crate::held::{GUARANTEE, WITHOUT_CONDITION, WITH_CONDITION};
use crate::random::Random;
use crate::sovereign::right_steps;

pub const AMOUNT_LIMIT: u64 = 1_000_000_000_000;
pub const DAYS_LIMIT: u64 = 100_000;
/// The limit of document 01; what was accepted under it still is.
pub const EARLIER_DAYS_LIMIT: u64 = 36_000;

/// Edges of what the rules tell apart.
const SHORT_EDGES: &[u64] = &[1, 2, 30, 89, 90, 91, 92, 359, 360, 361, 1799, 1800, 1801];
/// Edges of both limits and of 16 bits, which hold the days of the earlier one.
pub const LONG_EDGES: &[u64] = &[
    EARLIER_DAYS_LIMIT - 1,
    EARLIER_DAYS_LIMIT,
    EARLIER_DAYS_LIMIT + 1,
    (1 << 16) - 1,
    1 << 16,
    (1 << 16) + 1,
    DAYS_LIMIT - 1,
    DAYS_LIMIT,
];
const INTERVALS: &[u64] = &[1, 1, 1, 2, 5, 6, 10, 11, 20, 21, 249, 250];
const CURRENCIES: &[u64] = &[978, 978, 840, 826, 1, 999];

pub fn amount(random: &mut Random) -> u64 {
    match random.below(20) {
        0 => 0,
        1 => 1,
        2..=4 => random.between(2, 200),
        5..=9 => random.between(200, 1_000_000),
        10..=15 => random.between(1_000_000, 1_000_000_000),
        16..=18 => random.between(1_000_000_000, AMOUNT_LIMIT),
        _ => random.pick(&[AMOUNT_LIMIT - 1, AMOUNT_LIMIT]),
    }
}

/// An item's amount: often a part of the deal's, so that exposure is left over
/// and cover is used up about as often as not.
fn item_amount(random: &mut Random, deal: &Terms, items: u64) -> u64 {
    if random.percent(25) {
        return amount(random);
    }
    let most = deal.amount / items.max(1) * 5 / 2;
    random.between(0, most.clamp(1, AMOUNT_LIMIT))
}

/// Mostly a short one, where the rules tell days apart.
fn edge(random: &mut Random) -> u64 {
    let edges = random.weighted(&[(13, SHORT_EDGES), (2, LONG_EDGES)]);
    random.pick(edges)
}

/// From so many days up; mostly not above the earlier limit, since longer ones
/// are all alike to the rules.
fn days_from(random: &mut Random, least: u64) -> u64 {
    let most = match least <= EARLIER_DAYS_LIMIT && random.percent(90) {
        true => EARLIER_DAYS_LIMIT,
        false => DAYS_LIMIT,
    };
    random.between(least, most)
}

fn term(random: &mut Random) -> u64 {
    match random.below(4) {
        0 | 1 => edge(random),
        2 => random.between(91, 3600),
        _ => days_from(random, 1),
    }
}

/// Residual and original term of cover, mostly long enough to count.
fn cover_terms(random: &mut Random, deal: &Terms) -> (u64, u64) {
    let due = deal.residual_term;
    let residual = match random.below(10) {
        0..=2 => due,
        3..=5 => days_from(random, due),
        6 | 7 if due > 92 => random.between(91, due - 1),
        8 => due.saturating_sub(1).max(1),
        _ => term(random),
    };
    let original = match random.below(8) {
        0 => residual,
        1 => residual.max(random.between(359, 361)),
        2 => residual.max(random.pick(LONG_EDGES)),
        _ => days_from(random, residual.max(360)),
    };
    (residual, original)
}

fn item_currency(random: &mut Random, deal: &Terms) -> u64 {
    match random.below(10) {
        0..=6 => deal.currency,
        7 | 8 => random.pick(CURRENCIES),
        _ => random.between(1, 999),
    }
}

/// Met in nearly all cases.
fn condition(random: &mut Random) -> u64 {
    u64::from(!random.percent(3))
}

pub fn has_step(goods: u64) -> bool {
    (2..=6).contains(&goods)
}

/// Type, step and issue life of goods; in so many cases of a hundred one of
/// steps 1 to 3, which are eligible for most types.
fn goods(random: &mut Random, eligible: u64) -> (u64, u64, u64) {
    let goods = random.between(1, 9);
    if !has_step(goods) {
        return (goods, 0, 0);
    }
    let step = match random.percent(eligible) {
        true => random.between(1, 3),
        false => random.between(0, 6),
    };
    let life = match random.percent(50) {
        true => edge(random),
        false => random.between(1, 3600),
    };
    (goods, step, life)
}

/// Of a book, or of a deal that is in none. Edition 3 tells most apart.
pub fn edition(random: &mut Random) -> u64 {
    random.weighted(&[(3, 1), (3, 2), (4, 3)])
}

/// Any that fits the class. It is drawn aside, so that the deals of a seed are
/// those of document 01 but for this step.
fn sovereign_step(random: &Random, class: u64) -> u64 {
    let steps = right_steps(class);
    random.aside().between(*steps.start(), *steps.end())
}

pub fn terms(random: &mut Random, edition: u64) -> Terms {
    let class = random.weighted(&[(3, 1), (3, 2), (5, 3), (1, 4)]);
    let step = match class {
        4 => 0,
        _ => random.between(0, 6),
    };
    let (lent_type, lent_step, lent_issue_life) = match random.percent(40) {
        true => (1, 0, 0),
        false => goods(random, 0),
    };
    let interval = match random.percent(80) {
        true => random.pick(INTERVALS),
        false => random.between(1, 250),
    };
    Terms {
        amount: amount(random),
        class,
        step,
        sovereign_step: sovereign_step(random, class),
        currency: random.pick(CURRENCIES),
        kind: random.between(1, 3),
        interval,
        residual_term: term(random),
        lent_type,
        lent_step,
        lent_issue_life,
        edition,
    }
}

/// One of so many items of the deal.
pub fn collateral(random: &mut Random, deal: &Terms, items: u64) -> Collateral {
    let (goods, step, issue_life) = goods(random, 60);
    let (residual_term, original_term) = cover_terms(random, deal);
    Collateral {
        amount: item_amount(random, deal, items),
        goods,
        step,
        issue_life,
        currency: item_currency(random, deal),
        residual_term,
        original_term,
        lawful: condition(random),
        unrelated: condition(random),
        unreflected: condition(random),
        listed: random.below(2),
    }
}

/// One of so many guarantees of the deal.
pub fn guarantee(random: &mut Random, deal: &Terms, items: u64) -> Guarantee {
    let step = match random.percent(50) {
        true => random.between(1, 2),
        false => random.between(0, 6),
    };
    let (residual_term, original_term) = cover_terms(random, deal);
    let amount = item_amount(random, deal, items);
    let class = random.between(1, 3);
    Guarantee {
        amount,
        class,
        step,
        sovereign_step: sovereign_step(random, class),
        currency: item_currency(random, deal),
        residual_term,
        original_term,
        lawful: condition(random),
        direct: condition(random),
        unreflected: condition(random),
    }
}

/// One of so many swaps of the deal, with either entry of its condition.
pub fn swap(random: &mut Random, deal: &Terms, items: u64) -> Swap {
    let numbers = guarantee(random, deal, items).to_numbers();
    let restructuring = random.below(2);
    let sent = |place| numbers.get(place).copied().unwrap_or(restructuring);
    Swap::from_numbers(&std::array::from_fn(sent))
}

/// One of so many guarantees and swaps of the deal, as its record holds them.
pub fn held(random: &mut Random, deal: &Terms, items: u64) -> HeldGuarantee {
    HeldGuarantee {
        instrument: random.weighted(&[(2, GUARANTEE), (1, WITHOUT_CONDITION), (1, WITH_CONDITION)]),
        ..guarantee(random, deal, items).into()
    }
}

/// How many items a list has: few in most deals, sixteen in some.
pub fn list_length(random: &mut Random) -> u64 {
    match random.below(100) {
        0..=19 => 0,
        20..=74 => random.between(1, 3),
        75..=91 => random.between(4, 8),
        92..=96 => random.between(9, 15),
        _ => 16,
    }
}

#[cfg(test)]
mod tests {
    use super::*;
    use crate::days;

    #[test]
    fn every_edge_is_met_in_every_field_of_days() {
        let mut met = days::cells("");
        for number in 0..5000 {
            let random = &mut Random::new(13, number);
            let terms = terms(random, 2);
            days::meet(&mut met, b'D', &terms.to_numbers(), 0);
            for _ in 0..3 {
                let item = collateral(random, &terms, 3);
                days::meet(&mut met, b'C', &item.to_numbers(), 0);
                let item = guarantee(random, &terms, 3);
                days::meet(&mut met, b'G', &item.to_numbers(), 0);
                let item = swap(random, &terms, 3);
                days::meet(&mut met, b'S', &item.to_numbers(), 0);
            }
        }
        // What is left is the day above the limit.
        assert!(met.never_met().all(|cell| cell[2] > DAYS_LIMIT));
        assert_eq!(met.never_met().count(), 9);
    }

    #[test]
    fn most_days_are_such_as_the_rules_tell_apart() {
        let terms = Vec::from_iter((0..10_000).map(|number| term(&mut Random::new(17, number))));
        let within = |days: std::ops::RangeInclusive<u64>| {
            terms.iter().filter(|term| days.contains(term)).count()
        };
        let (short, long) = (
            within(1..=3600),
            within(EARLIER_DAYS_LIMIT + 1..=DAYS_LIMIT),
        );
        assert!((6700..7500).contains(&short), "{short}");
        assert!((400..900).contains(&long), "{long}");
        assert_eq!(within(1..=DAYS_LIMIT), terms.len());
    }
}
