//! The haircut that the tables of an edition have for goods, in millionths at a
//! holding period of ten business days.

use std::collections::BTreeSet;

use crate::bands::{band, EDGES};

/// Of cover in another currency than the deal's.
pub const CURRENCY: u64 = 80_000;

const SOVEREIGN_AT_STEP_4: u64 = 150_000;

/// By band: at step 1, and at steps 2 and 3.
type Bands = &'static [[u64; 2]];

const SOVEREIGN: Bands = &[[5_000, 10_000], [20_000, 30_000], [40_000, 60_000]];
const SECURITISED: Bands = &[[20_000, 40_000], [80_000, 120_000], [160_000, 240_000]];
const OTHER: Bands = &[[10_000, 20_000], [40_000, 60_000], [80_000, 120_000]];
const OTHER_2023: Bands = &[
    [10_000, 20_000],
    [30_000, 40_000],
    [40_000, 60_000],
    [60_000, 120_000],
    [120_000, 200_000],
];

/// Of goods by type, step and issue life, listed senior paper or not; None where
/// they are not eligible as collateral.
pub fn of(edition: u64, [goods, step, life]: [u64; 3], listed: bool) -> Option<u64> {
    let later = edition == 3;
    let (bands, row) = match (goods, step) {
        (1, _) => return Some(0),
        (2, 4) => return Some(SOVEREIGN_AT_STEP_4),
        (7 | 9, _) => return Some(if later { 200_000 } else { 150_000 }),
        (8, _) => return Some(if later { 300_000 } else { 250_000 }),
        (4, 0) if listed => (other(later), 1),
        (2, 1..=3) => (SOVEREIGN, row(step)),
        (3 | 4, 1..=3) => (other(later), row(step)),
        (5, 1..=3) => (SECURITISED, row(step)),
        _ => return None,
    };
    Some(bands[band(edition, goods, life) as usize - 1][row])
}

fn other(later: bool) -> Bands {
    match later {
        true => OTHER_2023,
        false => OTHER,
    }
}

fn row(step: u64) -> usize {
    usize::from(step > 1)
}

/// Of lent goods that are not eligible as collateral.
pub fn not_eligible(edition: u64) -> u64 {
    match edition {
        3 => 300_000,
        _ => 250_000,
    }
}

/// Each haircut that eligible goods have under an edition.
pub fn all(edition: u64) -> BTreeSet<u64> {
    let debt = (2..=5).flat_map(|goods| (1..=4).map(move |step| (goods, step)));
    let debt = debt.flat_map(|(goods, step)| EDGES.map(|life| [goods, step, life]));
    let rest = [1, 7, 8, 9].map(|goods| [goods, 0, 0]);
    let goods = debt.chain(rest);
    goods
        .filter_map(|of| self::of(edition, of, false))
        .collect()
}

#[cfg(test)]
mod tests {
    use super::*;
    use crate::heading::EDITIONS;
    use hadlephoga::{Collateral, Record, Report, Terms};

    #[test]
    fn haircuts_of_each_edition() {
        let earlier = [0, 5, 10, 20, 30, 40, 60, 80, 120, 150, 160, 240, 250];
        let later = [0, 5, 10, 20, 30, 40, 60, 80, 120, 150, 160, 200, 240, 300];
        let thousands = |haircuts: &[u64]| haircuts.iter().map(|of| of * 1000).collect();
        assert_eq!(all(1), thousands(&earlier));
        assert_eq!(all(2), all(1));
        assert_eq!(all(3), thousands(&later));
        assert!(EDITIONS.iter().all(|of| all(*of).contains(&CURRENCY)));
    }

    /// What reporting says of a deal of a million for which these goods are lent, with
    /// this item. The holding period is ten days, so that a haircut is scaled to itself.
    fn reported(edition: u64, lent: [u64; 3], item: [u64; Collateral::LENGTH]) -> Report {
        let [goods, step, life] = lent;
        let terms = [
            1_000_000, 3, 4, 0, 978, 2, 1, 90, goods, step, life, edition,
        ];
        let item = Collateral::from_numbers(&item);
        let record = Record::new(Terms::from_numbers(&terms), &[item], &[]);
        hadlephoga::report(&record).expect("an accepted deal")
    }

    /// Each type and step at each edge of a band.
    fn all_goods() -> impl Iterator<Item = [u64; 3]> {
        let debt = (2..=6).flat_map(|goods| (0..=6).map(move |step| (goods, step)));
        let debt = debt.flat_map(|(goods, step)| EDGES.map(|life| [goods, step, life]));
        debt.chain([1, 7, 8, 9].map(|goods| [goods, 0, 0]))
    }

    #[test]
    fn collateral_has_the_haircuts_that_values_show() {
        let entries = EDITIONS
            .into_iter()
            .flat_map(|of| [(of, 0), (of, 1)])
            .flat_map(|(edition, listed)| all_goods().map(move |goods| (edition, goods, listed)));
        for (edition, goods, listed) in entries {
            let [of, step, life] = goods;
            let value = |currency| {
                let item = [1_000_000, of, step, life, currency, 90, 90, 1, 1, 1, listed];
                reported(edition, [1, 0, 0], item).collateral[0].value()
            };
            let haircut = self::of(edition, goods, listed == 1);
            let left = haircut.map_or(0, |haircut| 1_000_000 - haircut);
            assert_eq!(value(978), left, "{edition} {goods:?} {listed}");
            assert_eq!(value(840), left.saturating_sub(CURRENCY));
        }
    }

    #[test]
    fn lent_goods_have_the_haircuts_that_exposures_show() {
        let cash = [500_000, 1, 0, 0, 978, 90, 90, 1, 1, 1, 0];
        for edition in EDITIONS {
            for goods in all_goods() {
                let haircut = of(edition, goods, false).unwrap_or(not_eligible(edition));
                let exposure = reported(edition, goods, cash).exposure;
                assert_eq!(exposure, 500_000 + haircut, "{edition} {goods:?}");
            }
        }
    }
}
