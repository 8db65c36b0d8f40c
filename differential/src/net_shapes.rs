//! How nets of securities and of currencies come about: their sides and entries, where what
//! they cost shows in E*.

use std::cmp::Ordering;

use reference::{NettingSet, Position};

use crate::cells::{cell, Cell, Cells};
use crate::nets::{Net, Nets, Netted};
use crate::periods::scaled;
use crate::set::{CASH, LENT, RECEIVED, TABLES};
use crate::table_haircuts::CURRENCY;

/// On which sides a security stands.
const BOTH: u64 = 3;
/// The net.
const NET_LENT: u64 = 1;
const NET_RECEIVED: u64 = 2;
const CANCELLED: u64 = 3;
/// What is in a currency, beside cash and securities alone.
const CASH_ALONE: u64 = 1;
const SECURITIES_ALONE: u64 = 2;
const CASH_AND_SECURITIES: u64 = 3;
/// Whether a currency is that of settlement.
const OTHER: u64 = 0;
const SETTLEMENT: u64 = 1;
/// As many entries, and as many currencies, as are told apart.
const MOST_ENTRIES: u64 = 3;
const MOST_CURRENCIES: u64 = 4;

pub struct NetShapes {
    securities: Cells,
    currencies: Cells,
    /// How many currencies have a net, but for that of settlement.
    counts: Cells,
    /// A security's net, and that of its currency on the other side.
    opposite: Cells,
}

fn by_table(cases: Vec<Vec<u64>>) -> impl Iterator<Item = Cell> {
    TABLES.into_iter().flat_map(move |table| {
        let cases = cases.clone().into_iter();
        cases.map(move |case| cell(&[&[table], &case as &[u64]].concat()))
    })
}

fn securities() -> Vec<Vec<u64>> {
    let mut cases = Vec::new();
    for entries in 1..=MOST_ENTRIES {
        cases.extend([LENT, RECEIVED].map(|side| vec![side, entries, side]));
        if entries > 1 {
            cases.extend([NET_LENT, NET_RECEIVED, CANCELLED].map(|net| vec![BOTH, entries, net]));
        }
    }
    cases
}

fn currencies() -> Vec<Vec<u64>> {
    let mut cases = Vec::new();
    for made in [CASH_ALONE, SECURITIES_ALONE, CASH_AND_SECURITIES] {
        cases.extend([NET_LENT, NET_RECEIVED, CANCELLED].map(|net| vec![OTHER, made, net]));
        // Nothing shows of a net of 0 that has no haircut.
        cases.extend([NET_LENT, NET_RECEIVED].map(|net| vec![SETTLEMENT, made, net]));
    }
    cases
}

fn net_of(signed: i128) -> u64 {
    match signed.cmp(&0) {
        Ordering::Greater => NET_LENT,
        Ordering::Less => NET_RECEIVED,
        Ordering::Equal => CANCELLED,
    }
}

fn made_of<'a>(mut entries: impl Iterator<Item = &'a Position> + Clone) -> u64 {
    let cash = entries.clone().any(|one| one.goods == CASH);
    let securities = entries.any(|one| one.goods != CASH);
    match (cash, securities) {
        (true, true) => CASH_AND_SECURITIES,
        (true, false) => CASH_ALONE,
        _ => SECURITIES_ALONE,
    }
}

impl NetShapes {
    pub fn new() -> Self {
        let counts = (0..=MOST_CURRENCIES).map(|count| vec![count]);
        let opposite = [NET_LENT, NET_RECEIVED].map(|net| vec![net]);
        NetShapes {
            securities: Cells::new(
                "sets, nets of securities: table, sides, entries, net",
                by_table(securities()),
            ),
            currencies: Cells::new(
                "sets, nets of currencies: table, settlement, cash or securities, net",
                by_table(currencies()),
            ),
            counts: Cells::new(
                "sets, other currencies with a net: table, how many",
                by_table(counts.collect()),
            ),
            opposite: Cells::new(
                "sets, a security's net against its currency's: table, net",
                by_table(opposite.to_vec()),
            ),
        }
    }

    pub fn families(&self) -> [&Cells; 4] {
        [
            &self.securities,
            &self.currencies,
            &self.counts,
            &self.opposite,
        ]
    }

    /// An accepted set and what it comes to.
    pub fn meet(&mut self, set: &NettingSet, nets: &Nets) {
        let mut others = 0;
        for net in nets.nets.iter().filter(|net| shows(nets, net)) {
            match net.of {
                Netted::Security(number) => self.meet_security(set, nets, net, number),
                Netted::Currency(number) => {
                    others += u64::from(net.signed() != 0);
                    let entries = set.positions.iter();
                    let made = made_of(entries.filter(|one| one.currency == number));
                    let case = [set.table, OTHER, made, net_of(net.signed())];
                    self.currencies.meet(&case);
                }
            }
        }
        self.meet_settlement(set, nets);
        self.counts.meet(&[set.table, others.min(MOST_CURRENCIES)]);
    }

    fn meet_security(&mut self, set: &NettingSet, nets: &Nets, net: &Net, number: u64) {
        let mut entries = set.positions.iter().filter(|one| one.security == number);
        let stands = |side: u64| entries.clone().any(|one| one.side == side);
        let sides = u64::from(stands(LENT)) * LENT + u64::from(stands(RECEIVED)) * RECEIVED;
        let signed = net.signed();
        let count = (net.entries as u64).min(MOST_ENTRIES);
        self.securities
            .meet(&[set.table, sides, count, net_of(signed)]);
        let currency = entries.next().map(|one| Netted::Currency(one.currency));
        let currency = nets.nets.iter().find(|net| Some(net.of) == currency);
        if currency.is_some_and(|net| net.signed().signum() == -signed.signum() && signed != 0) {
            self.opposite.meet(&[set.table, net_of(signed)]);
        }
    }

    /// Where the haircut of another currency would show.
    fn meet_settlement(&mut self, set: &NettingSet, nets: &Nets) {
        let mut settled = nets.clone();
        settled.nets.clear();
        let entries = set.positions.iter();
        let entries = entries.filter(|one| one.currency == set.settlement);
        for one in entries.clone() {
            settled.enter(Netted::Currency(set.settlement), one, CURRENCY);
        }
        let Some(net) = settled.nets.first() else {
            return;
        };
        let cost = net.signed().abs() * i128::from(scaled(CURRENCY, nets.days));
        if nets.exposure_of(nets.millionths() + cost) != nets.exposure() {
            let case = [
                set.table,
                SETTLEMENT,
                made_of(entries),
                net_of(net.signed()),
            ];
            self.currencies.meet(&case);
        }
    }
}

/// Whether E* would change without this net's cost; of one that cancels, if lent and received
/// were added.
fn shows(nets: &Nets, net: &Net) -> bool {
    match net.signed() {
        0 => nets.tells_sides(net),
        _ => nets.exposure_of(nets.millionths() - net.cost()) != nets.exposure(),
    }
}

#[cfg(test)]
mod tests {
    use super::*;
    use crate::random::Random;
    use crate::set_nets::of_nets;
    use crate::sets::any_set;

    #[test]
    fn every_shape_is_listed_and_met() {
        let mut met = NetShapes::new();
        assert_eq!(met.families().map(|cells| cells.all()), [24, 30, 10, 4]);
        for number in 0..4000 {
            let random = &mut Random::new(137, number);
            for set in [of_nets(random), any_set(random)] {
                met.meet(&set, &Nets::of(&set));
            }
        }
        for cells in met.families() {
            let never = Vec::from_iter(cells.never_met());
            assert_eq!(
                (never, cells.unlisted().count()),
                (vec![], 0),
                "{}",
                cells.title
            );
        }
    }
}
