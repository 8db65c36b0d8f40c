//! The tests of a netting set in their order: of two that fail, the first one is given.

use std::cmp::Ordering;

use crate::cells::{cell, Cells};
use crate::wrong::Wrong;

/// The refusal of a test; of one of positions, 20 more.
pub type Test = u64;

const OF_POSITIONS: Test = 20;

const TESTS: [Test; 14] = [11, 2, 3, 4, 5, 6, 21, 22, 23, 24, 25, 15, 16, 17];

/// Where two tests of positions fail: in one position, or in two, the given one in the
/// earlier, whatever their order within one; never in the later. 0 for all other tests.
pub const SAME_POSITION: u64 = 1;
const EARLIER_POSITION: u64 = 2;
const LATER_POSITION: u64 = 3;

fn is_of_positions(test: Test) -> bool {
    (OF_POSITIONS + 1..=OF_POSITIONS + 5).contains(&test)
}

/// The test that is given, the other, and where they fail.
pub fn pairs() -> Vec<[u64; 3]> {
    let mut pairs = Vec::new();
    for (place, first) in TESTS.into_iter().enumerate() {
        for second in TESTS.into_iter().skip(place + 1) {
            match [first, second].into_iter().all(is_of_positions) {
                true => pairs.extend([
                    [first, second, SAME_POSITION],
                    [first, second, EARLIER_POSITION],
                    [second, first, EARLIER_POSITION],
                ]),
                // One number for both would not tell them apart.
                false if first + OF_POSITIONS == second => {}
                false => pairs.push([first, second, 0]),
            }
        }
    }
    pairs
}

pub fn cells(title: &'static str) -> Cells {
    Cells::new(title, pairs().iter().map(|pair| cell(pair)))
}

/// The test that a wrong fails, refused so by itself.
pub fn test_of(wrong: &Wrong, refusal: u64) -> Test {
    match wrong.field() {
        Some((Some(_), _)) if refusal <= 5 => OF_POSITIONS + refusal,
        _ => refusal,
    }
}

/// Two wrongs of an accepted set, how each is refused by itself, and both together.
pub fn meet(cells: &mut Cells, wrongs: [&Wrong; 2], alone: [u64; 2], both: u64) {
    let mut tests = [0, 1].map(|one| test_of(wrongs[one], alone[one]));
    let mut places = wrongs.map(|wrong| wrong.field().and_then(|(position, _)| position));
    if both != alone[0] {
        tests.reverse();
        places.reverse();
    }
    let arrangement = match tests.into_iter().all(is_of_positions) {
        true => match places[0].cmp(&places[1]) {
            Ordering::Equal => SAME_POSITION,
            Ordering::Less => EARLIER_POSITION,
            Ordering::Greater => LATER_POSITION,
        },
        false => 0,
    };
    let given = both == alone[0] || both == alone[1];
    if given && alone[0] != alone[1] && !alone.contains(&0) {
        cells.meet(&[tests[0], tests[1], arrangement]);
    }
}

#[cfg(test)]
mod tests {
    use super::*;
    use crate::set::{place, CURRENCY, SIDE};

    #[test]
    fn every_pair_is_listed() {
        // Of fourteen tests, four of which have a number like one of positions; of the ten
        // pairs of tests of positions, in one position and in two, in either order.
        assert_eq!(pairs().len(), 14 * 13 / 2 - 4 + 2 * 10);
        assert_eq!(cells("").all(), pairs().len());
    }

    #[test]
    fn what_is_met() {
        let at = |position, field| Wrong::Number {
            place: place(position, field),
            value: 0,
        };
        let met = |wrongs: [&Wrong; 2], alone, both| {
            let mut met = cells("");
            meet(&mut met, wrongs, alone, both);
            let unlisted = met.unlisted().count();
            let met = met.counts().filter(|(_, count)| *count > 0);
            (
                Vec::from_iter(met.map(|(cell, _)| cell[..3].to_vec())),
                unlisted,
            )
        };
        let [side, currency] = [at(1, SIDE), at(1, CURRENCY)];
        let one = (vec![vec![22, 24, SAME_POSITION]], 0);
        assert_eq!(met([&side, &currency], [2, 4], 2), one);
        assert_eq!(met([&currency, &side], [4, 2], 2), one);
        let two = (vec![vec![24, 22, EARLIER_POSITION]], 0);
        assert_eq!(met([&at(0, CURRENCY), &side], [4, 2], 4), two);
        // Given in the wrong order, of tests and of positions.
        assert_eq!(met([&side, &currency], [2, 4], 4), (vec![], 1));
        assert_eq!(met([&at(0, CURRENCY), &side], [4, 2], 2), (vec![], 1));
        assert_eq!(met([&side, &currency], [2, 2], 2), (vec![], 0));
        assert_eq!(met([&side, &currency], [0, 4], 4), (vec![], 0));
    }
}
