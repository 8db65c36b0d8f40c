//! Deals in which losses count: items that each step takes something of, all or by
//! rounding alone, at amounts where the products are whole and where they are not,
//! beside items that are left out on each ground, with amounts from 0 to the limit.

use crate::answers::{COLLATERAL_GROUNDS, GROUNDS};
use crate::heading::{CURRENCY, INTERVAL};
use crate::line::Line;
use crate::random::Random;
use crate::revalued::{ELIGIBLE, NOT_ELIGIBLE};
use crate::swapped::{put_party, AMOUNTS, COUNTERPARTIES, PROVIDERS};
use crate::values::{AMOUNT_LIMIT, DAYS_LIMIT};

/// Place of the amount in terms and in items, of the term in terms, of both terms in
/// items.
const AMOUNT: usize = 0;
const TERM: usize = 7;
const RESIDUAL_TERM: usize = 5;
const ORIGINAL_TERM: usize = 6;
/// Places of type, step and issue life, and of the conditions.
const TYPE: std::ops::Range<usize> = 1..4;
const LAWFUL: usize = 7;
/// Unrelated of collateral, direct of the others.
const SECOND_CONDITION: usize = 8;
const UNREFLECTED: usize = 9;

/// Each leaves room for a mismatch that is valued.
const TERMS: &[u64] = &[92, 93, 180, 361, 1799, 1800, 1801, 3600, DAYS_LIMIT];
/// At the last of these haircuts reach the whole.
const INTERVALS: &[u64] = &[1, 1, 2, 6, 11, 125, 249, 250];
/// Without a haircut, and with the largest.
const CASH: [u64; 3] = [1, 0, 0];
const EQUITY: [u64; 3] = [8, 0, 0];

/// The unrated other entity, and one that weighs as much as any counterparty.
const UNRATED_ENTITY: [[u64; 2]; 1] = [[3, 0]];
const HEAVIEST: [[u64; 2]; 1] = [[1, 6]];

/// Amounts that are left out, beside those between.
const LEFT_OUT: [u64; 3] = [0, 1, AMOUNT_LIMIT];

/// Makes a deal such a one.
pub fn lose(random: &mut Random, deal: &mut [Line]) {
    let Some((opening, items)) = deal.split_first_mut() else {
        return;
    };
    put_party(random, opening, COUNTERPARTIES);
    let terms = &mut opening.fields;
    terms[INTERVAL] = random.pick(INTERVALS);
    terms[TERM] = match random.percent(70) {
        true => random.pick(TERMS),
        false => random.between(92, 3600),
    };
    terms[AMOUNT] = match random.below(6) {
        0 | 1 => random.pick(&AMOUNTS),
        2 => random.between(3, 200),
        3 | 4 => whole(random, terms[TERM]),
        _ => terms[AMOUNT],
    };
    for item in items {
        put_valued(random, item, terms);
        if random.percent(55) {
            leave_out(random, item, terms[TERM]);
        }
    }
}

/// Such that every step takes a whole number: three fifths of it, a million times the
/// days that count.
fn whole(random: &mut Random, term: u64) -> u64 {
    let least = 5_000_000 * (term.min(1800) - 90);
    least * random.between(1, AMOUNT_LIMIT / least)
}

/// No ground applies; a haircut and a mismatch, or one of them, or neither.
fn put_valued(random: &mut Random, item: &mut Line, terms: &[u64]) {
    let fields = &mut item.fields;
    fields[LAWFUL..=UNREFLECTED].fill(1);
    fields[CURRENCY] = terms[CURRENCY];
    let has_haircut = random.percent(60);
    if has_haircut && (item.letter != b'C' || random.percent(50)) {
        fields[CURRENCY] = terms[CURRENCY] % 999 + 1;
    }
    if item.letter == b'C' {
        let goods = match has_haircut {
            true if random.percent(20) => EQUITY,
            true => random.pick(&ELIGIBLE),
            false => CASH,
        };
        fields[TYPE].copy_from_slice(&goods);
    } else {
        put_party(random, item, PROVIDERS);
    }
    put_terms(random, item, terms[TERM]);
    item.fields[AMOUNT] = amount(random, terms, item.fields[AMOUNT]);
}

fn put_terms(random: &mut Random, item: &mut Line, due: u64) {
    let residual = match random.below(8) {
        0 | 1 => due,
        2 => random.between(due, DAYS_LIMIT),
        3 | 4 => 91,
        5 => due - 1,
        _ => random.between(91, due - 1),
    };
    item.fields[RESIDUAL_TERM] = residual;
    item.fields[ORIGINAL_TERM] = item.fields[ORIGINAL_TERM].max(residual).max(360);
}

fn amount(random: &mut Random, terms: &[u64], before: u64) -> u64 {
    let of_deal = terms[AMOUNT];
    let amount = match random.below(10) {
        0 | 1 => random.pick(&AMOUNTS),
        2 | 3 => random.between(1, 20),
        4 => random.between(21, 2000),
        5 | 6 => whole(random, terms[TERM]),
        7 => of_deal,
        8 => random.pick(&[of_deal + 1, of_deal.saturating_sub(1)]),
        _ => before,
    };
    amount.min(AMOUNT_LIMIT)
}

/// On one of its grounds, with any amount.
fn leave_out(random: &mut Random, item: &mut Line, due: u64) {
    let ground = match item.letter {
        b'C' => random.pick(&COLLATERAL_GROUNDS),
        _ => random.pick(&GROUNDS),
    };
    match ground {
        21 => item.fields[LAWFUL] = 0,
        22 | 27 => item.fields[SECOND_CONDITION] = 0,
        23 => item.fields[UNREFLECTED] = 0,
        24 => item.fields[TYPE].copy_from_slice(&NOT_ELIGIBLE),
        25 => {
            let residual = random.between(1, (due - 1).min(359));
            item.fields[RESIDUAL_TERM] = residual;
            item.fields[ORIGINAL_TERM] = random.between(residual, 359);
        }
        26 => item.fields[RESIDUAL_TERM] = random.between(1, 90),
        28 => put_party(random, item, &UNRATED_ENTITY),
        _ => put_party(random, item, &HEAVIEST),
    }
    if random.percent(75) {
        item.fields[AMOUNT] = random.pick(&LEFT_OUT);
    } else {
        item.fields[AMOUNT] = random.between(2, AMOUNT_LIMIT - 1);
    }
}

#[cfg(test)]
mod tests {
    use super::*;
    use crate::cells::Cells;
    use crate::deal::{deal_with, record};
    use crate::heading::EDITIONS;
    use crate::items::Items;
    use crate::left_out::LeftOut;
    use crate::loss_mistakes;
    use crate::losses::Losses;
    use crate::sides::reference_refusal;
    use std::collections::BTreeSet;

    fn losing(number: u64) -> Vec<Line> {
        let random = &mut Random::new(103, number);
        let edition = EDITIONS[number as usize % 3];
        let mut deal = deal_with(random, edition, 16, 16);
        lose(random, &mut deal);
        deal
    }

    #[test]
    fn every_line_is_accepted() {
        for line in (0..500).flat_map(losing) {
            let refusal = reference_refusal(line.letter, &line.fields);
            assert_eq!(refusal, 0, "{line:?}");
        }
    }

    fn assert_met(cells: &Cells) {
        let never = Vec::from_iter(cells.never_met());
        assert!(never.is_empty(), "{}: {never:?}", cells.title);
        assert_eq!(cells.unlisted().count(), 0);
    }

    #[test]
    fn every_case_is_met() {
        let (mut losses, mut left_out) = (Losses::new(), LeftOut::new());
        let mut mistakes = loss_mistakes::cells("mistakes");
        for number in 0..2500 {
            let record = record(&losing(number));
            let report = hadlephoga::report(&record).expect("an accepted deal");
            let items = Items::new(&record, &report);
            losses.meet(&items);
            left_out.meet(&items);
            loss_mistakes::meet(&mut mistakes, &items);
        }
        losses.families().into_iter().for_each(assert_met);
        left_out.families().into_iter().for_each(assert_met);
        assert_met(&mistakes);
    }

    #[test]
    fn whole_amounts_are_not_rounded() {
        for term in TERMS {
            let days = term.min(&1800) - 90;
            let amounts = (0..100).map(|number| whole(&mut Random::new(107, number), *term));
            let amounts = BTreeSet::from_iter(amounts);
            assert!(amounts.len() > 50, "{term}");
            for amount in amounts {
                assert!(amount <= AMOUNT_LIMIT);
                assert_eq!(amount % (5_000_000 * days), 0);
            }
        }
    }
}
