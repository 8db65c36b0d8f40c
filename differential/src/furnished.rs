//! Netting sets that could be refused for two wrongs at once.

use reference::{NettingSet, Position};

use crate::draft::{cash, shuffle, Draft};
use crate::due_tests::{pairs, Test, SAME_POSITION};
use crate::random::Random;
use crate::set::*;
use crate::set_goods;
use crate::values::AMOUNT_LIMIT;
use crate::wrong::{Made, Wrong};

/// Each pair of tests as often.
pub fn two_wrong(random: &mut Random) -> Made {
    let [first, second, arrangement] = random.pick(&pairs());
    let furnished = Furnished::new(random);
    let places = match arrangement == SAME_POSITION {
        true => [furnished.plain[0]; 2],
        false => furnished.plain,
    };
    let wrongs = [(first, places[0]), (second, places[1])]
        .map(|(test, position)| furnished.wrong(random, test, position));
    (numbers(&furnished.set), wrongs.to_vec())
}

/// A set in which every test can be made to fail by one wrong.
struct Furnished {
    set: NettingSet,
    /// One of two entries of one security.
    twin: usize,
    /// One that may only be lent.
    lent: usize,
    /// One whose amount can be raised.
    raised: usize,
    /// Two others, in this order.
    plain: [usize; 2],
}

/// Debt that is eligible.
fn debt(random: &mut Random, draft: &mut Draft) -> Position {
    let [goods, step] = [random.between(2, 5), random.between(1, 3)];
    let life = set_goods::life(random);
    let currency = draft.currency(random);
    draft.security(random, [goods, step, life], currency)
}

impl Furnished {
    fn new(random: &mut Random) -> Self {
        let mut draft = Draft::new(random);
        let twin = debt(random, &mut draft);
        let goods = set_goods::not_eligible(random);
        let lent = draft.security(random, goods, draft.set.settlement);
        let raised = cash(draft.currency(random));
        let plain = [0; 2].map(|_| debt(random, &mut draft));
        let mut parts = vec![(1, twin), (2, twin), (3, lent), (4, raised)];
        parts.extend(plain.map(|one| (5, one)));
        parts.extend((0..random.below(8)).map(|_| (6, raised)));
        shuffle(random, &mut parts);
        for (_, one) in &parts {
            draft.put(*one, LENT, random.between(1, 1_000_000));
        }
        let places = |part| {
            let of = parts.iter().enumerate().filter(move |(_, of)| of.0 == part);
            Vec::from_iter(of.map(|(place, _)| place))
        };
        Furnished {
            set: draft.set,
            twin: places(2)[0],
            lent: places(3)[0],
            raised: places(4)[0],
            plain: [places(5)[0], places(5)[1]],
        }
    }

    /// What makes this test fail, in this position if it is one of positions.
    fn wrong(&self, random: &mut Random, test: Test, position: usize) -> Wrong {
        let at = |place, value| Wrong::Number { place, value };
        match test {
            11 => {
                let length = numbers(&self.set).len();
                Wrong::Length(length + random.between(1, 6) as usize)
            }
            2 => at(random.pick(&[TABLE, CLASS]), random.pick(&[0, 5])),
            3 => at(random.pick(&[STEP, SOVEREIGN_STEP]), random.between(7, 9)),
            4 => at(SETTLEMENT, random.pick(&[0, 1000])),
            5 => at(INTERVAL, random.pick(&[0, 61])),
            6 => Wrong::Positions(random.between(33, 35) as usize),
            21 => at(place(position, AMOUNT), AMOUNT_LIMIT + 1),
            22 => at(place(position, random.pick(&[SIDE, GOODS])), 0),
            23 => at(place(position, GOODS_STEP), 7),
            24 => at(place(position, CURRENCY), random.pick(&[0, 1000])),
            25 => at(place(position, random.pick(&[SECURITY, LIFE])), 0),
            15 => {
                let step = self.set.positions[self.twin].step;
                at(place(self.twin, GOODS_STEP), step - 1)
            }
            16 => at(place(self.lent, SIDE), RECEIVED),
            _ => at(place(self.raised, AMOUNT), AMOUNT_LIMIT),
        }
    }
}

#[cfg(test)]
mod tests {
    use super::*;
    use crate::due_tests::test_of;
    use crate::sides::Side;
    use crate::wrong::put_all;
    use std::collections::HashSet;

    #[test]
    fn each_wrong_is_refused_and_the_first_is_given() {
        let mut met = HashSet::new();
        for number in 0..4000 {
            let (base, wrongs) = two_wrong(&mut Random::new(109, number));
            let refusal = |numbers: &[u64]| Side::Reference.net_set(numbers).refusal;
            assert_eq!(refusal(&base), 0);
            let alone = [0, 1].map(|one| refusal(&wrongs[one].put(&base)));
            let tests = [0, 1].map(|one| test_of(&wrongs[one], alone[one]));
            assert_eq!(refusal(&put_all(&wrongs, &base)), alone[0], "{wrongs:?}");
            met.insert(tests);
        }
        assert_eq!(met.len(), 91 - 4 + 10);
    }
}
