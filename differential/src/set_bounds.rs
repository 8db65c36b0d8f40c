//! Netting sets whose exposure stands at a bound, or next to it, with a given fraction of a
//! unit that is rounded up.

use reference::NettingSet;

use crate::draft::{cash, open, settle, shuffle, side, Draft};
use crate::nets::{own_haircut, period, Nets, WHOLE};
use crate::periods::scaled;
use crate::random::Random;
use crate::set::LENT;
use crate::set_goods;
use crate::table_haircuts;

/// Fractions of a unit, in millionths, that a rounding could mistake.
pub const FRACTIONS: [u64; 4] = [0, 1, 500_000, 999_999];

const MILLION: u64 = WHOLE as u64;

pub fn at_bounds(random: &mut Random) -> NettingSet {
    let mut draft = Draft::new(random);
    let top = random.percent(40);
    let most = random.pick(&[20, 30_000, 1_000_000_000]);
    for _ in 0..random.below(4) {
        let currency = draft.currency(random);
        let one = match random.percent(20) {
            true => cash(currency),
            false => {
                let goods = set_goods::any(random);
                draft.security(random, goods, currency)
            }
        };
        // Received goods may not leave enough of haircuts to reach the top.
        let side = if top { LENT } else { side(random, &one) };
        draft.put(one, side, random.between(0, most));
    }
    put_fraction(random, &mut draft);
    let set = &mut draft.set;
    match (top, random.below(4)) {
        (true, _) => {
            let lent = Nets::of(set).lent;
            settle(set, lent - 2 + i128::from(random.below(4)));
        }
        (false, 0) => open(random, set),
        (false, _) => settle(set, i128::from(random.below(5)) - 3),
    }
    shuffle(random, &mut draft.set.positions);
    draft.set
}

/// Lends a security in the settlement currency that leaves all millionths with one of the
/// fractions.
fn put_fraction(random: &mut Random, draft: &mut Draft) {
    let table = draft.set.table;
    let (interval, haircut) = invertible(random, table);
    draft.set.interval = interval;
    let goods = set_goods::with_haircut(random, table, haircut);
    let settlement = draft.set.settlement;
    let one = draft.security(random, goods, settlement);
    let haircut = scaled(own_haircut(table, &one), period(interval));
    let rest = Nets::of(&draft.set).millionths().rem_euclid(WHOLE) as u64;
    let wanted = random.pick(&FRACTIONS);
    let amount = (wanted + MILLION - rest) * inverse(haircut) % MILLION;
    draft.put(one, LENT, amount + MILLION * random.below(1000));
}

/// An interval, and a haircut of the table that has every fraction there.
fn invertible(random: &mut Random, table: u64) -> (u64, u64) {
    let haircuts = Vec::from_iter(table_haircuts::all(table));
    loop {
        let (interval, haircut) = (random.between(1, 60), random.pick(&haircuts));
        let of = scaled(haircut, period(interval));
        if of % 2 != 0 && of % 5 != 0 {
            return (interval, haircut);
        }
    }
}

/// What gives 1 when multiplied by this, but for millions: its 399,999th power, since the
/// numbers below a million that have such one are 400,000.
fn inverse(of: u64) -> u64 {
    let (mut power, mut square, mut left) = (1, of % MILLION, 399_999);
    while left > 0 {
        if left % 2 == 1 {
            power = power * square % MILLION;
        }
        square = square * square % MILLION;
        left /= 2;
    }
    power
}

#[cfg(test)]
mod tests {
    use super::*;

    #[test]
    fn inverses() {
        for of in (1..2000).filter(|of| of % 2 != 0 && of % 5 != 0) {
            assert_eq!(of * inverse(of) % MILLION, 1);
        }
    }

    #[test]
    fn every_set_has_one_of_the_fractions() {
        for number in 0..1000 {
            let set = at_bounds(&mut Random::new(101, number));
            let fraction = Nets::of(&set).millionths().rem_euclid(WHOLE);
            assert!(FRACTIONS.contains(&(fraction as u64)), "{fraction}");
        }
    }
}
