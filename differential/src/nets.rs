//! A netting set worked out a third time, with all that leads to its figures: what each
//! security and each currency was lent and received, haircuts, millionths.

use reference::{NettingSet, Position};

use crate::periods::scaled;
use crate::set::{CASH, LENT};
use crate::table_haircuts::{self, CURRENCY};
use crate::weighing::weight;

/// A whole in millionths.
pub const WHOLE: i128 = 1_000_000;

/// What is netted: a security or a currency, by number.
#[derive(Clone, Copy, Debug, PartialEq, Eq)]
pub enum Netted {
    Security(u64),
    Currency(u64),
}

#[derive(Clone, Copy, Debug)]
pub struct Net {
    pub of: Netted,
    pub lent: i128,
    pub received: i128,
    pub entries: usize,
    /// Of the table, and scaled.
    pub haircut: u64,
    pub scaled: u64,
}

impl Net {
    pub fn signed(&self) -> i128 {
        self.lent - self.received
    }

    /// In millionths.
    pub fn cost(&self) -> i128 {
        self.signed().abs() * i128::from(self.scaled)
    }
}

#[derive(Clone, Debug)]
pub struct Nets {
    pub lent: i128,
    pub received: i128,
    pub nets: Vec<Net>,
    pub days: u64,
    pub weight: u64,
}

/// Holding period of a set's haircuts: its transactions are repo-style.
pub fn period(interval: u64) -> u64 {
    interval + 4
}

/// The table haircut of what is lent or received in a security.
pub fn own_haircut(table: u64, one: &Position) -> u64 {
    let goods = [one.goods, one.step, one.life];
    table_haircuts::of(table, goods, false).unwrap_or(table_haircuts::not_eligible(table))
}

impl Nets {
    /// Of an accepted set.
    pub fn of(set: &NettingSet) -> Self {
        let days = period(set.interval);
        let mut nets = Nets::without_haircuts(set, days);
        for one in &set.positions {
            if one.goods != CASH {
                let haircut = own_haircut(set.table, one);
                nets.enter(Netted::Security(one.security), one, haircut);
            }
            if one.currency != set.settlement {
                nets.enter(Netted::Currency(one.currency), one, CURRENCY);
            }
        }
        nets
    }

    /// Lent and received alone, to be netted over so many days.
    pub fn without_haircuts(set: &NettingSet, days: u64) -> Self {
        let sum = |lent: bool| {
            let of = set
                .positions
                .iter()
                .filter(|one| (one.side == LENT) == lent);
            of.map(|one| i128::from(one.amount)).sum()
        };
        Nets {
            lent: sum(true),
            received: sum(false),
            nets: Vec::new(),
            days,
            weight: weight(set.table, [set.class, set.step, set.sovereign_step]),
        }
    }

    /// Counts a position in the net of this security or currency.
    pub fn enter(&mut self, of: Netted, one: &Position, haircut: u64) {
        let place = self.nets.iter().position(|net| net.of == of);
        let place = place.unwrap_or_else(|| {
            self.nets.push(Net {
                of,
                lent: 0,
                received: 0,
                entries: 0,
                haircut,
                scaled: scaled(haircut, self.days),
            });
            self.nets.len() - 1
        });
        let net = &mut self.nets[place];
        net.entries += 1;
        match one.side == LENT {
            true => net.lent += i128::from(one.amount),
            false => net.received += i128::from(one.amount),
        }
    }

    pub fn balance(&self) -> i128 {
        (self.lent - self.received) * WHOLE
    }

    /// Before it is rounded and held to its bounds.
    pub fn millionths(&self) -> i128 {
        self.balance() + self.nets.iter().map(Net::cost).sum::<i128>()
    }

    pub fn exposure_of(&self, millionths: i128) -> u64 {
        rounded_up(millionths).clamp(0, self.lent) as u64
    }

    pub fn exposure(&self) -> u64 {
        self.exposure_of(self.millionths())
    }

    pub fn weighted_of(&self, exposure: u64) -> u64 {
        (exposure * self.weight).div_ceil(100)
    }

    /// E* and the weighted amount.
    pub fn figures(&self) -> [u64; 2] {
        let exposure = self.exposure();
        [exposure, self.weighted_of(exposure)]
    }

    /// Whether E* would change if the haircut of this net were a millionth off, either way.
    pub fn tells(&self, net: &Net) -> bool {
        let due = self.exposure();
        let off = net.signed().abs();
        let millionths = self.millionths();
        self.exposure_of(millionths - off) != due && self.exposure_of(millionths + off) != due
    }

    /// Whether E* would change if all of this net had its haircut, whatever side.
    pub fn tells_sides(&self, net: &Net) -> bool {
        let gross = (net.lent + net.received) * i128::from(net.scaled);
        self.exposure_of(self.millionths() - net.cost() + gross) != self.exposure()
    }
}

pub fn rounded_up(millionths: i128) -> i128 {
    -(-millionths).div_euclid(WHOLE)
}

#[cfg(test)]
mod tests {
    use super::*;
    use crate::random::Random;
    use crate::set::numbers;
    use crate::sets::any_set;
    use crate::sides::Side;

    #[test]
    fn figures_are_those_of_the_second_implementation() {
        let mut open = 0;
        for number in 0..3000 {
            let set = any_set(&mut Random::new(71, number));
            let nets = Nets::of(&set);
            let reply = Side::Reference.net_set(&numbers(&set));
            assert_eq!(reply.refusal, 0, "{set:?}");
            assert_eq!([reply.exposure, reply.rwa], nets.figures(), "{set:?}");
            open += u64::from(reply.exposure > 0 && i128::from(reply.exposure) < nets.lent);
        }
        assert!(open > 500, "{open}");
    }

    #[test]
    fn roundings() {
        let due = [(0, 0), (1, 1), (WHOLE, 1), (WHOLE + 1, 2), (-1, 0)];
        for (millionths, whole) in due {
            assert_eq!(rounded_up(millionths), whole);
        }
        assert_eq!([rounded_up(-WHOLE), rounded_up(-WHOLE - 1)], [-1, -1]);
    }

    /// Equity of a million is lent at ten days against cash in another currency.
    fn small(received: u64) -> NettingSet {
        let lent = [1, 1_000_000, 5, 7, 0, 0, 978];
        let cash = [2, received, 0, 1, 0, 0, 840];
        NettingSet::new([2, 3, 4, 0, 978, 6], vec![lent.into(), cash.into()])
    }

    #[test]
    fn what_a_millionth_shows() {
        let tells = |received| {
            let nets = Nets::of(&small(received));
            let all = nets.nets.iter();
            Vec::from_iter(all.map(|net| (net.of, nets.tells(net))))
        };
        let of = |own, currency| {
            [
                (Netted::Security(5), own),
                (Netted::Currency(840), currency),
            ]
        };
        // 1,150,000 and 8 percent of what was received, less that.
        assert_eq!(Nets::of(&small(500_000)).figures(), [690_000, 690_000]);
        assert_eq!(tells(500_000), of(true, false));
        assert_eq!(tells(1_000_000), of(true, true));
        assert_eq!(tells(0), of(false, false));
        assert_eq!(tells(1_300_000), of(false, false));
    }

    #[test]
    fn sides_tell_where_they_would_add() {
        let mut set = small(600_000);
        set.positions.push([2, 400_000, 5, 7, 0, 0, 978].into());
        let nets = Nets::of(&set);
        assert_eq!(nets.exposure(), 138_000);
        let tells = nets.nets.iter().map(|net| nets.tells_sides(net));
        assert_eq!(Vec::from_iter(tells), [true, false]);
    }
}
