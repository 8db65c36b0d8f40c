//! Received goods that are not eligible as collateral: each sort, with an amount and without,
//! in each place, whatever was lent of them besides.

use std::cmp::Ordering;

use reference::NettingSet;

use crate::cells::{cell, Cells};
use crate::draft::goods_of;
use crate::random::Random;
use crate::set::*;
use crate::set_entries::{place_among, places};
use crate::set_goods::{self, NOT_ELIGIBLE};
use crate::sets::{amount, any_draft};
use crate::wrong::{Made, Wrong};

/// The refusal.
const RECEIVED_NOT_ELIGIBLE: u64 = 16;

/// What was lent of the security besides: nothing, less, as much, more.
const NOTHING: u64 = 1;
const LESS: u64 = 2;
const AS_MUCH: u64 = 3;
const MORE: u64 = 4;

/// Goods that are lent, and received instead.
pub fn not_eligible(random: &mut Random) -> Made {
    let count = match random.percent(15) {
        true => POSITIONS - 2,
        false => random.index(6),
    };
    let mut draft = any_draft(random, count);
    let goods = set_goods::not_eligible(random);
    let currency = draft.currency(random);
    let mut one = draft.security(random, goods, currency);
    one.amount = match random.percent(40) {
        true => 0,
        false => amount(random, 1000),
    };
    let positions = &mut draft.set.positions;
    if random.percent(40) {
        let mut besides = one;
        besides.amount = match random.percent(40) {
            true => one.amount,
            false => random.between(0, 2 * one.amount + 1),
        };
        positions.insert(random.index(positions.len() + 1), besides);
    }
    let position = match random.below(3) {
        0 => positions.len(),
        _ => random.index(positions.len() + 1),
    };
    positions.insert(position, one);
    let wrong = Wrong::Number {
        place: place(position, SIDE),
        value: RECEIVED,
    };
    (numbers(&draft.set), vec![wrong])
}

pub struct Received {
    sorts: Cells,
    places: Cells,
}

impl Received {
    pub fn new() -> Self {
        let sorts = TABLES.into_iter().flat_map(|table| {
            NOT_ELIGIBLE.into_iter().flat_map(move |[goods, step]| {
                [0, 1].map(|amount| cell(&[table, goods, step, amount]))
            })
        });
        let places =
            places().flat_map(|place| (NOTHING..=MORE).map(move |lent| cell(&[place, lent])));
        Received {
            sorts: Cells::new("sets, 16: table, type, step, amount or none", sorts),
            places: Cells::new(
                "sets, 16: which position, lent besides",
                // What stands alone is not lent besides.
                places.filter(|cell| cell[0] != 1 || cell[1] == NOTHING),
            ),
        }
    }

    pub fn families(&self) -> [&Cells; 2] {
        [&self.sorts, &self.places]
    }

    /// A set that was refused, where one position alone is the cause.
    pub fn meet(&mut self, set: &NettingSet, refusal: u64) {
        if refusal != RECEIVED_NOT_ELIGIBLE {
            return;
        }
        let wrong = set.positions.iter().enumerate();
        let wrong =
            wrong.filter(|(_, one)| one.side == RECEIVED && !set_goods::is_eligible(goods_of(one)));
        let [(place, one)] = Vec::from_iter(wrong)[..] else {
            return;
        };
        let amount = u64::from(one.amount > 0);
        self.sorts.meet(&[set.table, one.goods, one.step, amount]);
        let besides = set.positions.iter().enumerate();
        let besides = besides.filter(|(at, of)| *at != place && of.security == one.security);
        let besides = Vec::from_iter(besides.map(|(_, of)| of.amount));
        let lent = match besides.iter().sum::<u64>().cmp(&one.amount) {
            _ if besides.is_empty() => NOTHING,
            Ordering::Less => LESS,
            Ordering::Equal => AS_MUCH,
            Ordering::Greater => MORE,
        };
        let place = place_among(place, set.positions.len());
        self.places.meet(&[place, lent]);
    }
}

#[cfg(test)]
mod tests {
    use super::*;
    use crate::sides::Side;
    use crate::wrong::set_of;

    #[test]
    fn every_case_is_listed_and_met() {
        let mut met = Received::new();
        assert_eq!(met.families().map(|cells| cells.all()), [88, 13]);
        for number in 0..5000 {
            let (base, wrongs) = not_eligible(&mut Random::new(127, number));
            assert_eq!(Side::Reference.net_set(&base).refusal, 0, "{base:?}");
            let sent = wrongs[0].put(&base);
            let refusal = Side::Reference.net_set(&sent).refusal;
            assert_eq!(refusal, RECEIVED_NOT_ELIGIBLE);
            met.meet(&set_of(&sent), refusal);
        }
        for cells in met.families() {
            assert_eq!((cells.met(), cells.unlisted().count()), (cells.all(), 0));
        }
    }
}
