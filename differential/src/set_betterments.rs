//! Betterments of a netting set: a larger received position, one more of them, a smaller
//! interval; where they are refused, what they do, and nets that they turn.

use reference::{NettingSet, Position};

use crate::cells::{cell, Cells};
use crate::draft::cash;
use crate::nets::{Nets, Netted};
use crate::random::Random;
use crate::set::{LENT, RECEIVED, TABLES};
use crate::set_goods;
use crate::values::AMOUNT_LIMIT;

/// Which betterment: of one more position, where it is put.
const LARGER: u64 = 1;
const FIRST: u64 = 2;
const BETWEEN: u64 = 3;
const LAST: u64 = 4;
const INTO_NONE: u64 = 5;
const INTERVAL: u64 = 6;

/// What it does to the weighted amount; a refusal is 10 and its number.
const FALLS: u64 = 1;
const STAYS: u64 = 2;
const REFUSED: u64 = 10;

/// A set after a betterment, and which it was.
pub struct Better {
    pub which: u64,
    pub set: NettingSet,
}

/// Any betterment of a set; None where it has no such.
pub fn better(random: &mut Random, set: &NettingSet) -> Option<Better> {
    match random.below(10) {
        0..=3 => larger(random, set),
        4..=7 => Some(one_more(random, set)),
        _ => Some(Better {
            which: INTERVAL,
            set: NettingSet {
                interval: random.below(set.interval),
                ..set.clone()
            },
        }),
    }
}

/// What has to come back of this security, or currency, until its net is none.
fn net_lent(set: &NettingSet, one: &Position) -> u64 {
    let of = match one.security {
        0 => Netted::Currency(one.currency),
        number => Netted::Security(number),
    };
    let nets = Nets::of(set).nets;
    let net = nets.iter().find(|net| net.of == of);
    net.map_or(0, |net| net.signed().max(0) as u64)
}

/// Until the net is none, some more or less, next to nothing, or about the limit.
fn more(random: &mut Random, set: &NettingSet, one: &Position) -> u64 {
    let net = net_lent(set, one);
    match random.below(10) {
        0..=2 => net,
        3..=5 => net + random.between(1, net + 1),
        6 | 7 => random.between(0, 1 + one.amount),
        8 => random.between(0, 2),
        _ => random.pick(&[AMOUNT_LIMIT, AMOUNT_LIMIT + 1]),
    }
}

fn larger(random: &mut Random, set: &NettingSet) -> Option<Better> {
    let received = set.positions.iter().enumerate();
    let received = received.filter(|(_, one)| one.side == RECEIVED);
    let places = Vec::from_iter(received.map(|(place, _)| place));
    let place = *places.get(random.index(places.len().max(1)))?;
    let mut set = set.clone();
    let more = more(random, &set, &set.positions[place]);
    set.positions[place].amount += more;
    Some(Better { which: LARGER, set })
}

fn one_more(random: &mut Random, set: &NettingSet) -> Better {
    let mut one = kind_of_more(random, set);
    one.side = RECEIVED;
    one.amount = more(random, set, &one);
    let count = set.positions.len();
    let place = match random.below(3) {
        0 => 0,
        1 => count,
        _ => random.index(count + 1),
    };
    let which = match place {
        _ if count == 0 => INTO_NONE,
        0 => FIRST,
        _ if place == count => LAST,
        _ => BETWEEN,
    };
    let mut set = set.clone();
    set.positions.insert(place, one);
    Better { which, set }
}

/// Of a security of the set, mostly; one that disagrees; cash; or any, eligible or not.
fn kind_of_more(random: &mut Random, set: &NettingSet) -> Position {
    let known = match set.positions.is_empty() {
        true => cash(set.settlement),
        false => random.pick(&set.positions),
    };
    let other = |goods: [u64; 3], number| {
        let [goods, step, life] = goods;
        Position::from([RECEIVED, 0, number, goods, step, life, known.currency])
    };
    match random.below(10) {
        0..=4 => known,
        5 => Position {
            currency: known.currency % 999 + 1,
            ..known
        },
        6 | 7 => cash(known.currency),
        8 => other(set_goods::eligible(random), random.between(1, 999)),
        _ => other(set_goods::not_eligible(random), random.between(1, 999)),
    }
}

pub struct Betterments {
    outcomes: Cells,
    /// Nets that were lent and are not any more.
    turned: Cells,
}

/// Of a security or of a currency, to none or to received.
const SECURITY: u64 = 1;
const CURRENCY: u64 = 2;
const TO_NONE: u64 = 1;
const TO_RECEIVED: u64 = 2;

fn outcomes() -> Vec<[u64; 2]> {
    let refused = |numbers: &[u64]| Vec::from_iter(numbers.iter().map(|of| REFUSED + of));
    [
        (LARGER, [vec![FALLS, STAYS], refused(&[1, 17])].concat()),
        (INTO_NONE, [vec![STAYS], refused(&[1, 16])].concat()),
        (INTERVAL, [vec![FALLS, STAYS], refused(&[5])].concat()),
    ]
    .into_iter()
    .chain([FIRST, BETWEEN, LAST].map(|which| {
        let refused = refused(&[1, 6, 15, 16, 17]);
        (which, [vec![FALLS, STAYS], refused].concat())
    }))
    .flat_map(|(which, outcomes)| outcomes.into_iter().map(move |outcome| [which, outcome]))
    .collect()
}

impl Betterments {
    pub fn new() -> Self {
        let tables = TABLES.into_iter();
        let outcomes = tables.clone().flat_map(|table| {
            let outcomes = outcomes().into_iter();
            outcomes.map(move |[which, outcome]| cell(&[table, which, outcome]))
        });
        let turned = tables.flat_map(|table| {
            let kinds = [LARGER, FIRST].into_iter();
            let kinds = kinds.flat_map(|which| [SECURITY, CURRENCY].map(|of| [which, of]));
            kinds.flat_map(move |[which, of]| {
                [TO_NONE, TO_RECEIVED].map(|to| cell(&[table, which, of, to]))
            })
        });
        Betterments {
            outcomes: Cells::new("sets, betterments: table, which, what it does", outcomes),
            turned: Cells::new(
                "sets, nets turned by betterments: table, which, of what, to",
                turned,
            ),
        }
    }

    pub fn families(&self) -> [&Cells; 2] {
        [&self.outcomes, &self.turned]
    }

    pub fn meet_refused(&mut self, better: &Better, refusal: u64) {
        let case = [better.set.table, better.which, REFUSED + refusal];
        self.outcomes.meet(&case);
    }

    /// A betterment of this set that is accepted, and whether the weighted amount falls.
    pub fn meet(&mut self, set: &NettingSet, better: &Better, falls: bool) {
        let table = set.table;
        let outcome = if falls { FALLS } else { STAYS };
        self.outcomes.meet(&[table, better.which, outcome]);
        let which = match better.which {
            INTERVAL => return,
            LARGER => LARGER,
            _ => FIRST,
        };
        let after = Nets::of(&better.set).nets;
        for net in Nets::of(set).nets.iter().filter(|net| net.signed() > 0) {
            let of = match net.of {
                Netted::Security(_) => SECURITY,
                Netted::Currency(_) => CURRENCY,
            };
            let turned = after.iter().find(|other| other.of == net.of);
            match turned.map_or(0, |net| net.signed().signum()) {
                0 => self.turned.meet(&[table, which, of, TO_NONE]),
                -1 => self.turned.meet(&[table, which, of, TO_RECEIVED]),
                _ => {}
            }
        }
    }
}

/// Without protection a set keeps what was lent alone.
pub fn lent_alone(set: &NettingSet) -> NettingSet {
    let mut alone = set.clone();
    alone.positions.retain(|one| one.side == LENT);
    alone
}

#[cfg(test)]
mod tests {
    use super::*;
    use crate::set::{numbers, POSITIONS};
    use crate::sets::any_set;
    use crate::sides::Side;

    #[test]
    fn every_case_is_listed_and_met() {
        let mut met = Betterments::new();
        assert_eq!(met.families().map(|cells| cells.all()), [2 * 31, 2 * 8]);
        let reply = |set: &NettingSet| Side::Reference.net_set(&numbers(set));
        for number in 0..40_000 {
            let random = &mut Random::new(151, number);
            let set = any_set(random);
            let Some(better) = better(random, &set) else {
                continue;
            };
            let (before, after) = (reply(&set), reply(&better.set));
            match after.refusal {
                0 => met.meet(&set, &better, after.rwa < before.rwa),
                refusal => met.meet_refused(&better, refusal),
            }
        }
        for cells in met.families() {
            let never = Vec::from_iter(cells.never_met());
            assert_eq!(
                (never, cells.unlisted().count()),
                (vec![], 0),
                "{}",
                cells.title
            );
        }
    }

    #[test]
    fn positions_stay_but_for_one() {
        for number in 0..2000 {
            let random = &mut Random::new(157, number);
            let set = any_set(random);
            let Some(Better { which, set: after }) = better(random, &set) else {
                assert!(set.positions.iter().all(|one| one.side == LENT));
                continue;
            };
            let more = after.positions.len() - set.positions.len();
            assert_eq!(more, usize::from((FIRST..=INTO_NONE).contains(&which)));
            assert_eq!(lent_alone(&after).positions, lent_alone(&set).positions);
            assert!(after.positions.len() <= POSITIONS + 1);
            assert!(after.interval <= set.interval);
        }
    }
}
