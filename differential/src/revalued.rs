//! Deals in which stored figures count: their periods are those of daily deals or
//! next to them, and amounts and terms are such that a figure one millionth off
//! shows.

use crate::debt::place_of_type;
use crate::heading::{CURRENCY, INTERVAL, KIND};
use crate::held::LETTERS;
use crate::line::Line;
use crate::random::Random;
use crate::values::AMOUNT_LIMIT;

/// Place of the amount in terms and in items, of the term in terms, and of both
/// terms in items.
const AMOUNT: usize = 0;
const TERM: usize = 7;
const RESIDUAL_TERM: usize = 5;
const ORIGINAL_TERM: usize = 6;

/// Kind and interval: daily; other ways to the same periods; periods a day from
/// these; weekly. The last four are for guarantees, whose periods are the
/// interval's alone.
const REVALUED: [[u64; 2]; 17] = [
    [1, 1],
    [2, 1],
    [3, 1],
    [1, 6],
    [1, 16],
    [2, 11],
    [1, 2],
    [2, 2],
    [3, 2],
    [2, 10],
    [1, 5],
    [2, 5],
    [3, 5],
    [1, 11],
    [3, 11],
    [2, 12],
    [1, 15],
];

/// Type, step and issue life: goods of each table haircut.
pub const ELIGIBLE: [[u64; 3]; 15] = [
    [1, 0, 0],
    [2, 1, 360],
    [2, 2, 360],
    [2, 1, 361],
    [2, 3, 361],
    [2, 1, 1801],
    [2, 2, 1801],
    [2, 4, 1801],
    [3, 2, 3601],
    [5, 1, 361],
    [5, 2, 361],
    [5, 1, 1801],
    [5, 3, 1801],
    [8, 0, 0],
    [9, 0, 0],
];
/// Goods that are not eligible, and are lent alone.
pub const NOT_ELIGIBLE: [u64; 3] = [6, 1, 360];

/// Of a deal: three tenths of a sixteenth of it are still more than a million, cut to
/// 60 percent too.
const LEAST_AMOUNT: u64 = AMOUNT_LIMIT / 10_000;

/// Makes a deal such a one.
pub fn revalue(random: &mut Random, deal: &mut [Line]) {
    let count = |letters: &[u8]| {
        let lines = deal.iter().filter(|line| letters.contains(&line.letter));
        lines.count() as u64
    };
    let counts = [count(b"C"), count(&LETTERS)];
    let Some((opening, items)) = deal.split_first_mut() else {
        return;
    };
    let terms = &mut opening.fields;
    [terms[KIND], terms[INTERVAL]] = random.pick(&REVALUED);
    let most = LEAST_AMOUNT * random.pick(&[10, 100, 1000, 10_000]);
    terms[AMOUNT] = random.between(LEAST_AMOUNT, most);
    put_goods(random, opening, &[&ELIGIBLE[..], &[NOT_ELIGIBLE]].concat());
    for item in items {
        let count = counts[usize::from(LETTERS.contains(&item.letter))];
        put_amount(random, item, opening.fields[AMOUNT] / count);
        lengthen(random, item, opening.fields[TERM]);
        if random.percent(50) {
            item.fields[CURRENCY] = random.between(1, 999);
        }
        put_goods(random, item, &ELIGIBLE);
    }
}

fn put_goods(random: &mut Random, line: &mut Line, goods: &[[u64; 3]]) {
    if let Some(place) = place_of_type(line.letter) {
        line.fields[place..place + 3].copy_from_slice(&random.pick(goods));
    }
}

/// Such that a list leaves some exposure open, and less than the deal's amount.
fn put_amount(random: &mut Random, item: &mut Line, part: u64) {
    let amount = random.between(part / 10 * 3, part / 10 * 11);
    item.fields[AMOUNT] = amount.min(AMOUNT_LIMIT);
}

/// Mostly there is no mismatch.
fn lengthen(random: &mut Random, item: &mut Line, term: u64) {
    if random.percent(80) {
        let residual = item.fields[RESIDUAL_TERM].max(term);
        item.fields[RESIDUAL_TERM] = residual;
        item.fields[ORIGINAL_TERM] = item.fields[ORIGINAL_TERM].max(residual);
    }
}

#[cfg(test)]
mod tests {
    use super::*;
    use crate::deal::deal;
    use crate::heading::EDITIONS;
    use crate::sides::reference_refusal;
    use crate::table_haircuts;
    use std::collections::BTreeSet;

    #[test]
    fn every_line_is_accepted_and_amounts_tell() {
        for number in 0..1000 {
            let random = &mut Random::new(61, number);
            let mut deal = deal(random, number % 3 + 1);
            revalue(random, &mut deal);
            for line in deal {
                assert_eq!(reference_refusal(line.letter, &line.fields), 0);
                assert!(line.fields[AMOUNT] >= 1_000_000);
            }
        }
    }

    #[test]
    fn goods_of_each_table_haircut_are_drawn() {
        for edition in EDITIONS {
            let haircut = |goods| table_haircuts::of(edition, goods, false);
            let drawn = ELIGIBLE.into_iter().filter_map(haircut);
            assert_eq!(BTreeSet::from_iter(drawn), table_haircuts::all(edition));
            assert!(ELIGIBLE.into_iter().all(|goods| haircut(goods).is_some()));
            assert_eq!(haircut(NOT_ELIGIBLE), None);
        }
    }
}
