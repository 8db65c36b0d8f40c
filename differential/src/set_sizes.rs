//! How many positions a netting set has, and lists of numbers that are no set.

use crate::cells::{cell, Cells};
use crate::random::Random;
use crate::set::*;
use crate::sets::any_of;
use crate::wrong::{Made, Wrong};

/// Also such as 8 bits, or 16, would make few.
const TOO_MANY: [usize; 8] = [33, 34, 64, 255, 256, 257, 288, 289];
const FAR_TOO_MANY: [usize; 2] = [65_536, 65_568];

/// Refusals.
const FULL: u64 = 6;
const NO_SET: u64 = 11;

/// Whole positions of a list that is no set: as many as these, or others between.
const WHOLE: [u64; 6] = [0, 1, 2, 31, 32, 33];
const BETWEEN: u64 = 2;

/// More positions than a set may have.
pub fn too_many(random: &mut Random) -> Made {
    let count = random.between(1, POSITIONS as u64) as usize;
    let many = random.pick(&TOO_MANY);
    (
        numbers(&any_of(random, count)),
        vec![Wrong::Positions(many)],
    )
}

/// One count after the other.
pub fn far_too_many(random: &mut Random, number: u64) -> Made {
    let many = FAR_TOO_MANY[(number % 2) as usize];
    (numbers(&any_of(random, 1)), vec![Wrong::Positions(many)])
}

/// Numbers that are missing or over.
pub fn of_another_length(random: &mut Random) -> Made {
    let count = random.pick(&[0, 1, 2, 5, 31, 32, 32]);
    let base = numbers(&any_of(random, count));
    let over = random.between(1, 6) as usize;
    let length = match random.below(8) {
        0..=2 => base.len() + over,
        3..=5 if count > 0 => base.len() - over,
        6 => OWN + 33 * WIDTH + over,
        _ => random.index(OWN),
    };
    (base, vec![Wrong::Length(length)])
}

pub struct Sizes {
    counts: Cells,
    lengths: Cells,
}

impl Sizes {
    pub fn new() -> Self {
        let accepted = (0..=POSITIONS as u64).map(|count| cell(&[count, 0]));
        let refused = TOO_MANY.into_iter().chain(FAR_TOO_MANY);
        let refused = refused.map(|count| cell(&[count as u64, FULL]));
        let short = (0..OWN as u64).map(|length| cell(&[length, 0]));
        let others = WHOLE
            .into_iter()
            .flat_map(|count| (1..=6).map(move |over| cell(&[OWN as u64, count, over])));
        Sizes {
            counts: Cells::new(
                "sets, counts of positions: count, refusal",
                accepted.chain(refused),
            ),
            lengths: Cells::new(
                "sets, 11: numbers of its own, whole positions, numbers over",
                short.chain(others),
            ),
        }
    }

    pub fn families(&self) -> [&Cells; 2] {
        [&self.counts, &self.lengths]
    }

    pub fn meet(&mut self, length: usize, refusal: u64) {
        let (count, over) = match length.checked_sub(OWN) {
            Some(rest) => (rest / WIDTH, rest % WIDTH),
            None => (0, 0),
        };
        match refusal {
            NO_SET if length < OWN => self.lengths.meet(&[length as u64, 0]),
            NO_SET => {
                let count = count as u64;
                let count = match WHOLE.contains(&count) || count > 33 {
                    true => count.min(33),
                    false => BETWEEN,
                };
                self.lengths.meet(&[OWN as u64, count, over as u64]);
            }
            0 => self.counts.meet(&[count as u64, 0]),
            FULL if TOO_MANY.contains(&count) || FAR_TOO_MANY.contains(&count) => {
                self.counts.meet(&[count as u64, FULL]);
            }
            _ => {}
        }
    }
}

#[cfg(test)]
mod tests {
    use super::*;
    use crate::sides::Side;

    #[test]
    fn every_case_is_listed_and_met() {
        let mut met = Sizes::new();
        assert_eq!(met.families().map(|cells| cells.all()), [33 + 10, 6 + 36]);
        for number in 0..1000 {
            let random = &mut Random::new(131, number);
            let far = (number % 100 == 0).then(|| (far_too_many(random, number / 100), FULL));
            let few = [
                (of_another_length(random), NO_SET),
                (too_many(random), FULL),
            ];
            for ((base, wrongs), due) in few.into_iter().chain(far) {
                assert_eq!(Side::Reference.net_set(&base).refusal, 0, "{base:?}");
                met.meet(base.len(), 0);
                let sent = wrongs[0].put(&base);
                let refusal = Side::Reference.net_set(&sent).refusal;
                assert_eq!(refusal, due);
                met.meet(sent.len(), refusal);
            }
        }
        for cells in met.families() {
            assert_eq!((cells.met(), cells.unlisted().count()), (cells.all(), 0));
        }
    }
}
