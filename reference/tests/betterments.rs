//! Lists of betterments under every edition (01: Betterments; 02: L1, L5, L9).

mod common;

use common::*;
use reference::{report, Collateral, Cover, Guarantee, Record, Swap};

const ROUNDS: u64 = 20_000;

/// A smaller step, where both are rated.
fn better_step(random: &mut Random, step: &mut u64) {
    *step = random.within(1.min(*step), *step);
}

/// One betterment of an item of collateral.
fn better_collateral(random: &mut Random, item: &mut Collateral, currency: u64) {
    match random.within(0, 8) {
        0 => item.amount += random.amount(),
        1 => item.residual += random.days(),
        2 => item.original += random.days(),
        3 => better_step(random, &mut item.step),
        4 => item.currency = currency,
        5 => item.lawful = 1,
        6 => item.unrelated = 1,
        7 => item.unreflected = 1,
        _ => item.listed = 1,
    }
}

/// One betterment of a guarantee or of what a swap sends alike.
fn better_guarantee(random: &mut Random, item: &mut Guarantee, currency: u64) {
    match random.within(0, 8) {
        0 => item.amount += random.amount(),
        1 => item.residual += random.days(),
        2 => item.original += random.days(),
        3 => better_step(random, &mut item.step),
        4 => better_step(random, &mut item.sovereign_step),
        5 => item.currency = currency,
        6 => item.lawful = 1,
        7 => item.direct = 1,
        _ => item.unreflected = 1,
    }
}

/// One betterment of a guarantee or a swap, which stays what it is.
fn better_cover(random: &mut Random, item: &mut Cover, currency: u64) {
    match item {
        Cover::Swap(swap) if random.chance(4) => swap.restructuring = 1,
        item => better_guarantee(random, shared(item), currency),
    }
}

/// The deal with one more item anywhere in its list; a full list gets a count
/// that 40 falls on.
fn with_one_more(random: &mut Random, record: &mut Record) {
    if random.chance(2) {
        let place = random.within(0, record.collateral_count.min(15)) as usize;
        record.collateral[place..].rotate_right(1);
        record.collateral[place] = random.collateral();
        record.collateral_count += 1;
    } else {
        let place = random.within(0, record.guarantee_count.min(15)) as usize;
        insert_cover(record, place, random.cover());
    }
}

fn insert_cover(record: &mut Record, place: usize, item: Cover) {
    record.guarantees[place..].rotate_right(1);
    record.guarantees[place] = item;
    record.guarantee_count += 1;
}

/// The deal after one betterment, whether or not it would be refused.
fn bettered(random: &mut Random, record: &Record) -> Record {
    let mut better = record.clone();
    let currency = record.terms.currency;
    let place = |random: &mut Random, count: u64| random.within(0, count.max(1) - 1) as usize;
    match random.within(0, 6) {
        0 => {
            let interval = &mut better.terms.interval;
            *interval = random.within(1, *interval);
        }
        1 => better_step(random, &mut better.terms.lent_step),
        2 => with_one_more(random, &mut better),
        3 | 4 => {
            let place = place(random, better.collateral_count);
            better_collateral(random, &mut better.collateral[place], currency);
        }
        _ => {
            let place = place(random, better.guarantee_count);
            better_cover(random, &mut better.guarantees[place], currency);
        }
    }
    better
}

/// Makes a list of betterments to the deal. Gives whether it lowers the weighted
/// amount, which it must not raise, and how many of it are refused.
fn better_by_a_list(random: &mut Random, mut record: Record) -> (bool, u64) {
    let before = report(&record).weighted;
    let mut refused = 0;
    for _ in 0..random.within(1, 12) {
        let better = bettered(random, &record);
        match report(&better).refusal {
            0 => record = better,
            refusal => {
                assert_eq!(refusal, 40);
                refused += 1;
            }
        }
    }
    let after = report(&record).weighted;
    let bare = report(&deal(record.terms, &[], &[])).weighted;
    assert!(after <= before && after <= bare, "{record:?}");
    (after < before, refused)
}

#[test]
fn lists_of_betterments_never_raise_the_weighted_amount() {
    let mut random = Random::new(42);
    let (mut lowered, mut refused) = (0, 0);
    for round in 0..ROUNDS {
        let record = under(&random.deal(), EDITIONS[(round % 3) as usize]);
        let (lowers, refusals) = better_by_a_list(&mut random, record);
        lowered += u64::from(lowers);
        refused += refusals;
    }
    assert!(lowered.min(refused) > ROUNDS / 10, "{lowered} {refused}");
}

/// Lets swaps matter: the counterparty weighs most, no collateral covers it, and
/// all swaps are without the condition and of amounts near the deal's.
fn lean_on_swaps(random: &mut Random, record: &mut Record) {
    let terms = &mut record.terms;
    (terms.class, terms.step) = (3, 6);
    record.collateral_count = 0;
    for item in &mut record.guarantees {
        if let Cover::Swap(swap) = item {
            let near = terms.amount.saturating_add(random.within(0, 4));
            swap.guarantee.amount = near.saturating_sub(2).min(1_000_000_000_000);
            swap.restructuring = 0;
        }
    }
}

#[test]
fn lists_of_betterments_of_swaps_never_raise_the_weighted_amount() {
    let mut random = Random::new(43);
    let mut lowered = 0;
    for round in 0..ROUNDS {
        let mut record = under(&random.deal(), EDITIONS[(round % 3) as usize]);
        lean_on_swaps(&mut random, &mut record);
        lowered += u64::from(better_by_a_list(&mut random, record).0);
    }
    assert!(lowered > ROUNDS / 5, "{lowered}");
}

/// The swaps of a deal, by place.
fn swaps(record: &Record) -> Vec<(usize, Swap)> {
    let items = record.guarantees.iter().enumerate();
    let counted = items.take(record.guarantee_count as usize);
    counted
        .filter_map(|(place, item)| match item {
            Cover::Swap(swap) => Some((place, *swap)),
            Cover::Guarantee(_) => None,
        })
        .collect()
}

#[test]
fn restructuring_as_a_credit_event_never_raises_the_weighted_amount() {
    let mut random = Random::new(44);
    let mut lowered = 0;
    for round in 0..ROUNDS {
        let mut record = under(&random.deal(), EDITIONS[(round % 3) as usize]);
        if random.chance(2) {
            lean_on_swaps(&mut random, &mut record);
        }
        let mut before = report(&record).weighted;
        for (place, swap) in swaps(&record) {
            record.guarantees[place] = met(swap).into();
            let now = report(&record).weighted;
            assert!(now <= before, "{record:?}");
            lowered += u64::from(now < before);
            before = now;
        }
    }
    assert!(lowered > ROUNDS / 5, "{lowered}");
}

#[test]
fn one_more_swap_anywhere_never_raises_the_weighted_amount() {
    let mut random = Random::new(45);
    let mut lowered = 0;
    for round in 0..ROUNDS {
        let record = under(&random.deal(), EDITIONS[(round % 3) as usize]);
        let count = record.guarantee_count.min(15) as usize;
        let before = report(&record).weighted;
        let swap = random.swap();
        for place in 0..=count {
            let mut better = record.clone();
            insert_cover(&mut better, place, swap.into());
            let now = report(&better);
            if now.refusal == 0 {
                assert!(now.weighted <= before, "{better:?}");
                lowered += u64::from(now.weighted < before);
            } else {
                assert_eq!(record.guarantee_count, 16);
            }
        }
    }
    assert!(lowered > ROUNDS / 20, "{lowered}");
}
