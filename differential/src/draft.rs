//! A netting set in the making: its counterparty, the currencies it has, and securities with
//! numbers of their own.

use reference::{NettingSet, Position};

use crate::nets::{Nets, WHOLE};
use crate::random::Random;
use crate::set::{CASH, LENT, NO_SECURITY, POSITIONS, RECEIVED, TABLES};
use crate::set_goods::{self, Goods};
use crate::sovereign::right_steps;

/// Two of them are alike in 8 bits, or one of them and no security.
const SECURITIES: &[u64] = &[
    1, 257, 513, 769, 256, 512, 768, 2, 258, 255, 511, 231, 743, 999,
];
const SETTLEMENTS: &[u64] = &[978, 978, 840, 826, 256, 1, 999];
/// The ends, and those whose period is one of daily deals, or next to it.
const INTERVALS: &[u64] = &[1, 1, 2, 5, 6, 7, 16, 17, 59, 60];

pub struct Draft {
    pub set: NettingSet,
    /// Settlement first.
    pub currencies: Vec<u64>,
    used: Vec<u64>,
}

/// Without positions.
fn terms(random: &mut Random) -> NettingSet {
    let class = random.weighted(&[(3, 1), (5, 2), (5, 3), (1, 4)]);
    let step = match (class, random.percent(30)) {
        (4, _) | (_, true) => 0,
        _ => random.between(0, 6),
    };
    let sovereigns = right_steps(class);
    let interval = match random.percent(50) {
        true => random.pick(INTERVALS),
        false => random.between(1, 60),
    };
    let settlement = match random.percent(80) {
        true => random.pick(SETTLEMENTS),
        false => random.between(1, 999),
    };
    let sovereign = random.between(*sovereigns.start(), *sovereigns.end());
    let own = [
        random.pick(&TABLES),
        class,
        step,
        sovereign,
        settlement,
        interval,
    ];
    NettingSet::new(own, Vec::new())
}

/// Another currency; half of them are alike in 8 bits.
fn beside(random: &mut Random, currency: u64) -> u64 {
    let other = match random.percent(50) {
        true => (currency + 256 * random.between(1, 3)) % 1024,
        false => random.between(1, 999),
    };
    match (1..=999).contains(&other) && other != currency {
        true => other,
        false => currency % 999 + 1,
    }
}

impl Draft {
    pub fn new(random: &mut Random) -> Self {
        let set = terms(random);
        let mut currencies = vec![set.settlement];
        for _ in 0..random.below(6) {
            let of = random.pick(&currencies);
            currencies.push(beside(random, of));
        }
        Draft {
            set,
            currencies,
            used: Vec::new(),
        }
    }

    /// The settlement currency as often as all others.
    pub fn currency(&self, random: &mut Random) -> u64 {
        match random.percent(40) {
            true => self.set.settlement,
            false => random.pick(&self.currencies),
        }
    }

    /// A number that no security of this set has yet.
    pub fn number(&mut self, random: &mut Random) -> u64 {
        loop {
            let number = match random.percent(60) {
                true => random.pick(SECURITIES),
                false => random.between(1, 999),
            };
            if !self.used.contains(&number) {
                self.used.push(number);
                return number;
            }
        }
    }

    /// A security of its own, of which nothing is lent.
    pub fn security(&mut self, random: &mut Random, goods: Goods, currency: u64) -> Position {
        let [goods, step, life] = goods;
        let security = self.number(random);
        Position::from([LENT, 0, security, goods, step, life, currency])
    }

    pub fn put(&mut self, one: Position, side: u64, amount: u64) {
        self.set.positions.push(Position {
            side,
            amount,
            ..one
        });
    }
}

pub fn cash(currency: u64) -> Position {
    Position::from([LENT, 0, NO_SECURITY, CASH, 0, 0, currency])
}

pub fn goods_of(one: &Position) -> Goods {
    [one.goods, one.step, one.life]
}

/// Either side; received only what may be.
pub fn side(random: &mut Random, one: &Position) -> u64 {
    match set_goods::is_eligible(goods_of(one)) && random.percent(50) {
        true => RECEIVED,
        false => LENT,
    }
}

/// Puts cash of the settlement currency in, lent or received, so that all millionths come
/// to this many units, rounded down.
pub fn settle(set: &mut NettingSet, units: i128) {
    let more = units - Nets::of(set).millionths().div_euclid(WHOLE);
    if more != 0 && set.positions.len() < POSITIONS {
        set.positions.push(Position {
            side: if more > 0 { LENT } else { RECEIVED },
            amount: more.unsigned_abs() as u64,
            ..cash(set.settlement)
        });
    }
}

/// Leaves E* between 0 and all that was lent, so that haircuts show.
pub fn open(random: &mut Random, set: &mut NettingSet) {
    let Nets { lent, received, .. } = Nets::of(set);
    let most = lent.max(received).max(4) as u64;
    let units = random.between(most / 4, most - 1);
    settle(set, units.into());
}

/// Puts the positions in any order.
pub fn shuffle<Part>(random: &mut Random, parts: &mut [Part]) {
    for place in 1..parts.len() {
        parts.swap(place, random.index(place + 1));
    }
}

#[cfg(test)]
mod tests {
    use super::*;
    use crate::set::numbers;
    use crate::sides::Side;

    #[test]
    fn terms_and_numbers() {
        for number in 0..500 {
            let random = &mut Random::new(79, number);
            let mut draft = Draft::new(random);
            let reply = Side::Reference.net_set(&numbers(&draft.set));
            assert_eq!(reply.refusal, 0);
            let mut used = Vec::from_iter((0..32).map(|_| draft.number(random)));
            used.sort();
            used.dedup();
            assert_eq!(used.len(), 32);
            assert!(draft.currencies.iter().all(|of| (1..=999).contains(of)));
        }
    }

    #[test]
    fn what_is_settled() {
        for number in 0..500 {
            let random = &mut Random::new(83, number);
            let mut draft = Draft::new(random);
            let currency = draft.currency(random);
            let goods = set_goods::any(random);
            let one = draft.security(random, goods, currency);
            draft.put(one, LENT, random.between(10, 1_000_000));
            let units = i128::from(random.below(2_000_000)) - 1_000_000;
            settle(&mut draft.set, units);
            let nets = Nets::of(&draft.set);
            assert_eq!(nets.millionths().div_euclid(WHOLE), units);
            open(random, &mut draft.set);
            let nets = Nets::of(&draft.set);
            let exposure = i128::from(nets.exposure());
            assert!(0 < exposure && exposure <= nets.lent);
        }
    }
}
