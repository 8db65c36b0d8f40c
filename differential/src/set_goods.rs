//! Goods of positions: those that may be received, those that may only be lent, and those
//! that have a given haircut.

use crate::bands::EDGES;
use crate::random::Random;
use crate::table_haircuts;
use crate::values::DAYS_LIMIT;

/// Type, step and issue life.
pub type Goods = [u64; 3];

/// Type and step of goods that are not eligible as collateral; positions have no entry for
/// listed senior bank paper.
pub const NOT_ELIGIBLE: [[u64; 2]; 22] = [
    [2, 0],
    [2, 5],
    [2, 6],
    [3, 0],
    [3, 4],
    [3, 5],
    [3, 6],
    [4, 0],
    [4, 4],
    [4, 5],
    [4, 6],
    [5, 0],
    [5, 4],
    [5, 5],
    [5, 6],
    [6, 0],
    [6, 1],
    [6, 2],
    [6, 3],
    [6, 4],
    [6, 5],
    [6, 6],
];

/// Type and step of those that are.
const ELIGIBLE: [[u64; 2]; 16] = [
    [2, 1],
    [2, 2],
    [2, 3],
    [2, 4],
    [3, 1],
    [3, 2],
    [3, 3],
    [4, 1],
    [4, 2],
    [4, 3],
    [5, 1],
    [5, 2],
    [5, 3],
    [7, 0],
    [8, 0],
    [9, 0],
];

/// The first and the last day, what 16 bits hold, and those at the edges of bands.
const ENDS: [u64; 5] = [1, 2, 65_535, 65_536, DAYS_LIMIT];

pub fn life(random: &mut Random) -> u64 {
    match random.below(10) {
        0..=5 => random.pick(&EDGES),
        6 | 7 => random.pick(&ENDS),
        8 => random.between(1, 5400),
        _ => random.between(1, DAYS_LIMIT),
    }
}

fn with_life(random: &mut Random, [goods, step]: [u64; 2]) -> Goods {
    match goods {
        7..=9 => [goods, step, 0],
        _ => [goods, step, life(random)],
    }
}

pub fn eligible(random: &mut Random) -> Goods {
    let goods = random.pick(&ELIGIBLE);
    with_life(random, goods)
}

pub fn not_eligible(random: &mut Random) -> Goods {
    let goods = random.pick(&NOT_ELIGIBLE);
    with_life(random, goods)
}

/// Any security; one in four may only be lent.
pub fn any(random: &mut Random) -> Goods {
    match random.percent(25) {
        true => not_eligible(random),
        false => eligible(random),
    }
}

pub fn is_eligible(goods: Goods) -> bool {
    // Under every edition alike.
    table_haircuts::of(3, goods, false).is_some()
}

/// Eligible goods with this haircut, which the table has.
pub fn with_haircut(random: &mut Random, table: u64, haircut: u64) -> Goods {
    let lives = EDGES.into_iter().chain([life(random)]);
    let lives = Vec::from_iter(lives);
    let goods = ELIGIBLE.into_iter().flat_map(|[goods, step]| {
        let lives = lives.iter();
        lives.map(move |life| match goods {
            7..=9 => [goods, step, 0],
            _ => [goods, step, *life],
        })
    });
    let such = goods.filter(|of| table_haircuts::of(table, *of, false) == Some(haircut));
    random.pick(&Vec::from_iter(such))
}

#[cfg(test)]
mod tests {
    use super::*;
    use crate::set::TABLES;

    #[test]
    fn what_is_eligible() {
        for edition in TABLES {
            for ([goods, step], due) in (NOT_ELIGIBLE.map(|of| (of, false)).into_iter())
                .chain(ELIGIBLE.map(|of| (of, true)))
            {
                let haircut = table_haircuts::of(edition, [goods, step, 1], false);
                assert_eq!(haircut.is_some(), due, "{goods} {step}");
            }
        }
        let mut known = Vec::from_iter(NOT_ELIGIBLE.into_iter().chain(ELIGIBLE));
        known.sort();
        known.dedup();
        // Five types with seven steps, three without.
        assert_eq!(known.len(), 5 * 7 + 3);
    }

    #[test]
    fn every_haircut_is_found() {
        let random = &mut Random::new(73, 1);
        for table in TABLES {
            for haircut in table_haircuts::all(table).into_iter().filter(|of| *of > 0) {
                let goods = with_haircut(random, table, haircut);
                assert_eq!(table_haircuts::of(table, goods, false), Some(haircut));
                assert!(is_eligible(goods));
            }
        }
    }
}
