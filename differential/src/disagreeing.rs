//! Entries of one security that disagree: in which field, on which sides, how far apart.

use reference::NettingSet;

use crate::cells::{cell, Cells};
use crate::random::Random;
use crate::set::*;
use crate::set_goods;
use crate::sets::any_draft;
use crate::wrong::{set_of, Made, Wrong};

const FIELDS: [usize; 4] = [GOODS, GOODS_STEP, LIFE, CURRENCY];
const SIDES: [u64; 2] = [LENT, RECEIVED];
/// The refusal.
const DISAGREE: u64 = 15;

/// How far apart two entries stand.
const NEXT: u64 = 1;
const APART: u64 = 2;
const AT_ENDS: u64 = 3;

/// Two entries of one security, or three, and one number of one of them that is another,
/// though right by itself.
pub fn disagreeing(random: &mut Random) -> Made {
    let count = match random.percent(50) {
        true => POSITIONS,
        false => random.between(2, POSITIONS as u64) as usize,
    };
    let places = places(random, count);
    let mut draft = any_draft(random, count);
    let security = draft.number(random);
    let life = set_goods::life(random);
    let goods = [random.between(2, 5), random.between(1, 3), life];
    let currency = draft.currency(random);
    let set = &mut draft.set;
    for place in &places {
        let one = &mut set.positions[*place];
        one.side = random.pick(&SIDES);
        (one.security, one.currency) = (security, currency);
        [one.goods, one.step, one.life] = goods;
        if random.percent(25) {
            one.amount = 0;
        }
    }
    let position = random.pick(&places);
    let field = random.pick(&FIELDS);
    let value = another(random, set, position, field);
    let place = place(position, field);
    (numbers(set), vec![Wrong::Number { place, value }])
}

/// The first and the last, one behind the other, or any; some with one between.
fn places(random: &mut Random, count: usize) -> Vec<usize> {
    let first = random.index(count - 1);
    let (first, last) = match random.below(3) {
        0 => (0, count - 1),
        1 => (first, first + 1),
        _ => (first, first + 1 + random.index(count - 1 - first)),
    };
    let third = first + 1 + random.index((last - first - 1).max(1));
    let between = Some(third).filter(|_| third < last && random.percent(25));
    [Some(first), between, Some(last)]
        .into_iter()
        .flatten()
        .collect()
}

/// Another right entry: one more or less, or any.
fn another(random: &mut Random, set: &NettingSet, position: usize, field: usize) -> u64 {
    let before = position_numbers(&set.positions[position])[field];
    let (low, high) = match field {
        GOODS => (2, 6),
        GOODS_STEP => (0, 6),
        LIFE => (1, 100_000),
        _ => (1, 999),
    };
    let any = random.between(low, high);
    let value = random.pick(&[before + 1, before - 1, any]);
    match (low..=high).contains(&value) && value != before {
        true => value,
        false if before == high => low,
        false => before + 1,
    }
}

pub struct Disagreeing {
    pairs: Cells,
    /// Which of three is the odd one.
    odd: Cells,
    /// Which of two has no amount: the earlier, the later or both.
    nothing: Cells,
}

impl Disagreeing {
    pub fn new() -> Self {
        let fields = FIELDS.map(|field| field as u64);
        let pairs = fields.into_iter().flat_map(|field| {
            let sides = SIDES
                .into_iter()
                .flat_map(|one| SIDES.map(|other| [one, other]));
            sides.flat_map(move |[one, other]| {
                (NEXT..=AT_ENDS).map(move |apart| cell(&[field, one, other, apart]))
            })
        });
        let with = |field| (1..=3).map(move |which| cell(&[field, which]));
        Disagreeing {
            pairs: Cells::new("sets, 15: field, sides, how far apart", pairs),
            odd: Cells::new(
                "sets, 15: field, odd one of three",
                fields.into_iter().flat_map(with),
            ),
            nothing: Cells::new(
                "sets, 15: field, which amounts are 0",
                fields.into_iter().flat_map(with),
            ),
        }
    }

    pub fn families(&self) -> [&Cells; 3] {
        [&self.pairs, &self.odd, &self.nothing]
    }

    /// A wrong that an accepted set was refused for.
    pub fn meet(&mut self, base: &[u64], wrong: &Wrong, refusal: u64) {
        let Some((Some(position), field)) = wrong.field() else {
            return;
        };
        if refusal != DISAGREE || !FIELDS.contains(&field) {
            return;
        }
        let set = set_of(base);
        let security = set.positions[position].security;
        let entries = set.positions.iter().enumerate();
        let entries = entries.filter(|(_, one)| one.security == security);
        let places = Vec::from_iter(entries.map(|(place, _)| place));
        let field = field as u64;
        match places[..] {
            [first, last] => self.meet_pair(&set, field, [first, last]),
            [_, _, _] => {
                let odd = places.iter().position(|place| *place == position);
                self.odd.meet(&[field, odd.map_or(0, |odd| odd as u64 + 1)]);
            }
            _ => {}
        }
    }

    fn meet_pair(&mut self, set: &NettingSet, field: u64, [first, last]: [usize; 2]) {
        let apart = match last - first {
            1 => NEXT,
            31 => AT_ENDS,
            _ => APART,
        };
        let [one, other] = [first, last].map(|place| &set.positions[place]);
        self.pairs.meet(&[field, one.side, other.side, apart]);
        let nothing = u64::from(one.amount == 0) + 2 * u64::from(other.amount == 0);
        if nothing > 0 {
            self.nothing.meet(&[field, nothing]);
        }
    }
}

#[cfg(test)]
mod tests {
    use super::*;
    use crate::sides::Side;

    #[test]
    fn every_case_is_listed_and_met() {
        let mut met = Disagreeing::new();
        assert_eq!(met.families().map(|cells| cells.all()), [48, 12, 12]);
        for number in 0..5000 {
            let (base, wrongs) = disagreeing(&mut Random::new(113, number));
            assert_eq!(Side::Reference.net_set(&base).refusal, 0);
            let refusal = Side::Reference.net_set(&wrongs[0].put(&base)).refusal;
            assert_eq!(refusal, DISAGREE, "{base:?} {wrongs:?}");
            met.meet(&base, &wrongs[0], refusal);
        }
        for cells in met.families() {
            assert_eq!((cells.met(), cells.unlisted().count()), (cells.all(), 0));
        }
    }
}
