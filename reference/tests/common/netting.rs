//! Sample netting sets, and a generator of random ones.

use super::*;
use reference::{net_set, NettingSet, Position};

pub const LENT: u64 = 1;
pub const RECEIVED: u64 = 2;
pub const TABLES: [u64; 2] = [2, 3];
pub const LIMIT: u64 = 1_000_000_000_000;

/// A set of the 2019 tables with an unrated corporate at weight 100, settled in
/// 978. The interval of 6 makes n 10, so that haircuts stay those of the tables.
pub const FIELDS: [u64; 6] = [2, 3, 0, 1, 978, 6];

/// A security: type, step, issue life and currency.
pub type Security = [u64; 4];

/// Sovereign debt at step 1 with 5,000 and with 20,000, main index equity with
/// 150,000, other equity with 250,000 and gold with 150,000 millionths.
pub const BILL: Security = [2, 1, 360, 978];
pub const BOND: Security = [2, 1, 720, 978];
pub const INDEX: Security = [7, 0, 0, 978];
pub const SHARE: Security = [8, 0, 0, 978];
pub const GOLD: Security = [9, 0, 0, 978];

/// The security in the currency.
pub fn quoted([goods, step, life, _]: Security, currency: u64) -> Security {
    [goods, step, life, currency]
}

pub fn set_of(positions: &[Position]) -> NettingSet {
    NettingSet::new(FIELDS, positions.to_vec())
}

/// The set under the table.
pub fn by_table(set: &NettingSet, table: u64) -> NettingSet {
    NettingSet {
        table,
        ..set.clone()
    }
}

/// The set with the interval.
pub fn revalued(set: &NettingSet, interval: u64) -> NettingSet {
    NettingSet {
        interval,
        ..set.clone()
    }
}

/// The set with the counterparty.
pub fn with_party(set: &NettingSet, [class, step, sovereign_step]: Party) -> NettingSet {
    NettingSet {
        class,
        step,
        sovereign_step,
        ..set.clone()
    }
}

/// Cash in the settlement currency of the sample set.
pub fn cash(side: u64, amount: u64) -> Position {
    cash_in(978, side, amount)
}

pub fn cash_in(currency: u64, side: u64, amount: u64) -> Position {
    Position::from([side, amount, 0, 1, 0, 0, currency])
}

/// A position in the security of the number.
pub fn held(side: u64, amount: u64, number: u64, security: Security) -> Position {
    let [goods, step, life, currency] = security;
    Position::from([side, amount, number, goods, step, life, currency])
}

/// E* of a set that must be accepted.
pub fn exposure(set: &NettingSet) -> u64 {
    let reply = net_set(set);
    assert_eq!(reply.refusal, 0, "{set:?}");
    reply.exposure
}

/// Weighted amount of a set that must be accepted.
pub fn weighted(set: &NettingSet) -> u64 {
    let reply = net_set(set);
    assert_eq!(reply.refusal, 0, "{set:?}");
    reply.weighted
}

/// All amounts of the side.
pub fn total(set: &NettingSet, side: u64) -> u64 {
    let positions = set.positions.iter().filter(|one| one.side == side);
    positions.map(|one| one.amount).sum()
}

/// The set with its lent positions alone.
pub fn without_protection(set: &NettingSet) -> NettingSet {
    let mut bare = set.clone();
    bare.positions.retain(|one| one.side == LENT);
    bare
}

/// The numbers of the set as a line holds them.
pub fn set_numbers(set: &NettingSet) -> Vec<u64> {
    let mut numbers = vec![
        set.table,
        set.class,
        set.step,
        set.sovereign_step,
        set.settlement,
        set.interval,
    ];
    for one in &set.positions {
        numbers.extend([one.side, one.amount, one.security, one.goods]);
        numbers.extend([one.step, one.life, one.currency]);
    }
    numbers
}

/// The set of such numbers.
pub fn set_from(numbers: &[u64]) -> NettingSet {
    let (fields, positions) = numbers.split_first_chunk().expect("six numbers");
    let positions = positions.chunks(7).map(|seven| {
        let fields: [u64; 7] = seven.try_into().expect("seven numbers");
        fields.into()
    });
    NettingSet::new(*fields, positions.collect())
}

impl Random {
    /// An accepted netting set.
    pub fn netting_set(&mut self) -> NettingSet {
        let class = self.within(1, 4);
        let step = if class == 4 { 0 } else { self.within(0, 6) };
        let sovereign_step = self.sovereign_step(class);
        let table = self.pick(&TABLES);
        let settlement = self.currency();
        let most = self.pick(&[1, 3, 8, 32]);
        let count = self.within(0, most);
        // Amounts of one size, for nets and haircuts to tell.
        let most = self
            .pick(&[300, 1_000_000, LIMIT])
            .min(LIMIT / count.max(1));
        let positions = (0..count).map(|_| self.position(most)).collect();
        let fields = [table, class, step, sovereign_step, settlement, 1];
        revalued(&NettingSet::new(fields, positions), self.netting_interval())
    }

    pub fn netting_interval(&mut self) -> u64 {
        match self.within(0, 2) {
            0 => self.within(1, 60),
            1 => self.within(1, 10),
            _ => self.pick(&[1, 2, 6, 36, 59, 60]),
        }
    }

    /// A position that a set of any other such positions accepts. Few numbers are
    /// drawn often, for positions to net.
    pub fn position(&mut self, most: u64) -> Position {
        let amount = match self.within(0, 3) {
            0 => self.amount() % (most + 1),
            _ => self.within(0, most),
        };
        let side = self.pick(&[LENT, RECEIVED]);
        if self.chance(4) {
            return cash_in(self.currency(), side, amount);
        }
        let number = match self.within(0, 3) {
            0 => self.within(1, 999),
            1 => self.within(1, 40),
            _ => self.within(1, 8),
        };
        let security @ [goods, step, life, _] = security_by(number);
        let side = if is_eligible([goods, step, life, 0]) {
            side
        } else {
            LENT
        };
        held(side, amount, number, security)
    }
}

/// The security that the number stands for in random sets.
fn security_by(number: u64) -> Security {
    let mut random = Random::new(number << 20);
    loop {
        let (goods, step, life) = random.goods();
        if goods != 1 {
            return [goods, step, life, random.currency()];
        }
    }
}
