//! The haircuts of edition 3, the tables of 2023 (02: L9), cell by cell and at the
//! edges of their bands. The expected figures are worked out from the papers.

mod common;

use common::*;
use reference::{report, Collateral, Guarantee, Terms};
use Bare::{LeftOut, Valued};

/// Kind and interval with n = 10, 5, 20, 40 and 269.
const PERIODS: [(u64, u64); 5] = [(2, 1), (1, 1), (3, 1), (3, 21), (3, 250)];

/// Every haircut of the tables in millionths at each of the periods: as it stands,
/// times √0.5 = 0.70710678, √2 = 1.41421356, 2 and √26.9 = 5.18652099, all
/// rounded up.
const SCALED: [[u64; 5]; 14] = [
    [0, 0, 0, 0, 0],
    [5_000, 3_536, 7_072, 10_000, 25_933],
    [10_000, 7_072, 14_143, 20_000, 51_866],
    [20_000, 14_143, 28_285, 40_000, 103_731],
    [30_000, 21_214, 42_427, 60_000, 155_596],
    [40_000, 28_285, 56_569, 80_000, 207_461],
    [60_000, 42_427, 84_853, 120_000, 311_192],
    [80_000, 56_569, 113_138, 160_000, 414_922],
    [120_000, 84_853, 169_706, 240_000, 622_383],
    [150_000, 106_067, 212_133, 300_000, 777_979],
    [160_000, 113_138, 226_275, 320_000, 829_844],
    [200_000, 141_422, 282_843, 400_000, 1_037_305],
    [240_000, 169_706, 339_412, 480_000, 1_244_766],
    [300_000, 212_133, 424_265, 600_000, 1_555_957],
];

/// A table haircut at each of the periods; it stands first, at n = 10.
fn scaled(haircut: u64) -> [u64; 5] {
    let row = SCALED.iter().find(|row| row[0] == haircut);
    *row.expect("a haircut of the tables")
}

#[test]
fn the_scaled_figures_fit_their_definition() {
    for row in SCALED {
        for (h, n) in row.into_iter().zip([10, 5, 20, 40, 269]) {
            let wanted = row[0] * row[0] * n;
            assert!(10 * h * h >= wanted, "{row:?} {n}");
            assert!(h == 0 || 10 * (h - 1) * (h - 1) < wanted, "{row:?} {n}");
        }
    }
}

/// First and last day of each band with the haircuts of other issuers at step 1
/// and at steps 2 and 3.
const OTHER_ISSUERS: [([u64; 2], [u64; 2]); 5] = [
    ([1, 360], [10_000, 20_000]),
    ([361, 1_080], [30_000, 40_000]),
    ([1_081, 1_800], [40_000, 60_000]),
    ([1_801, 3_600], [60_000, 120_000]),
    ([3_601, 100_000], [120_000, 200_000]),
];

/// The earlier bands, with their days at the edges of other issuers' bands too:
/// haircuts at step 1 and at steps 2 and 3 of sovereign debt and of
/// securitisations.
const EARLIER_BANDS: [(&[u64], [u64; 2], [u64; 2]); 3] = [
    (&[1, 360], [5_000, 10_000], [20_000, 40_000]),
    (
        &[361, 1_080, 1_081, 1_800],
        [20_000, 30_000],
        [80_000, 120_000],
    ),
    (
        &[1_801, 3_600, 3_601, 100_000],
        [40_000, 60_000],
        [160_000, 240_000],
    ),
];

/// Both rows of a band, step by step.
fn rated(goods: u64, life: u64, [first, second]: [u64; 2]) -> Vec<(Goods, u64)> {
    let rows = [(1, first), (2, second), (3, second)];
    rows.map(|(step, haircut)| ([goods, step, life, 0], haircut))
        .to_vec()
}

/// Every eligible cell of the tables of 2023 with its haircut, at both ends of
/// each band.
fn eligible_cells() -> Vec<(Goods, u64)> {
    let mut cells = vec![
        ([1, 0, 0, 0], 0),
        ([7, 0, 0, 0], 200_000),
        ([8, 0, 0, 0], 300_000),
        ([9, 0, 0, 0], 200_000),
    ];
    for (days, haircuts) in OTHER_ISSUERS {
        for life in days {
            cells.extend(rated(3, life, haircuts));
            cells.extend(rated(4, life, haircuts));
        }
    }
    for (days, sovereign, securitisation) in EARLIER_BANDS {
        for &life in days {
            cells.extend(rated(2, life, sovereign));
            cells.push(([2, 4, life, 0], 150_000));
            cells.extend(rated(5, life, securitisation));
        }
    }
    cells
}

/// Unrated bank debt that is listed and senior: the second row of other issuers.
fn listed_cells() -> Vec<(Goods, u64)> {
    OTHER_ISSUERS
        .iter()
        .flat_map(|(days, [_, second])| days.map(|life| ([4, 0, life, 1], *second)))
        .collect()
}

/// Debt that is not eligible, at every edge of the bands.
fn not_eligible_cells() -> Vec<Goods> {
    let steps: [(u64, &[u64]); 5] = [
        (2, &[0, 5, 6]),
        (3, &[0, 4, 5, 6]),
        (4, &[0, 4, 5, 6]),
        (5, &[0, 4, 5, 6]),
        (6, &[0, 1, 2, 3, 4, 5, 6]),
    ];
    let lives = [1, 360, 361, 1_080, 1_081, 1_800, 1_801, 3_600, 3_601];
    let mut cells = Vec::new();
    for (goods, steps) in steps {
        for &step in steps {
            cells.extend(lives.map(|life| [goods, step, life, 0]));
        }
    }
    cells
}

/// A corporate at 100 percent in the edition, with the kind and interval.
fn terms_in(edition: u64, (kind, interval): (u64, u64)) -> Terms {
    Terms {
        kind,
        interval,
        ..terms_of([3, 4, 0], edition)
    }
}

/// A million against goods of a million: E* is what the haircut takes, at most
/// the whole, and the weight of 100 percent repeats it.
fn assert_pledged(cell: Goods, haircut: u64) {
    for (period, haircut) in PERIODS.into_iter().zip(scaled(haircut)) {
        let terms = terms_in(3, period);
        let item = pledged(cell, 1_000_000);
        let taken = haircut.min(1_000_000);
        let answer = four_numbers(&book_of(&terms, &[item]));
        assert_eq!(answer, [1, 0, taken, taken], "{cell:?} {period:?}");
        let value = Valued(1_000_000 - taken);
        let found = outcome_of_collateral(terms, item);
        assert_eq!(found, value, "{cell:?} {period:?}");
    }
}

#[test]
fn every_cell_of_the_haircuts_for_collateral() {
    for (cell, haircut) in eligible_cells().into_iter().chain(listed_cells()) {
        assert_pledged(cell, haircut);
    }
}

#[test]
fn ground_24_is_that_of_the_earlier_tables() {
    for cell in not_eligible_cells() {
        for period in PERIODS {
            let terms = terms_in(3, period);
            let item = pledged(cell, 1_000_000);
            assert_eq!(outcome_of_collateral(terms, item), LeftOut(24), "{cell:?}");
            let answer = four_numbers(&book_of(&terms, &[item]));
            assert_eq!(answer, [1, 0, 1_000_000, 1_000_000], "{cell:?}");
        }
    }
}

/// A million of the goods lent against 700,000 in cash: E* is 300,000 and the
/// haircut, at most the deal's amount.
fn assert_lent([lent_goods, lent_step, lent_life, _]: Goods, haircut: u64) {
    for (period, haircut) in PERIODS.into_iter().zip(scaled(haircut)) {
        let terms = Terms {
            lent_goods,
            lent_step,
            lent_life,
            ..terms_in(3, period)
        };
        let cash = pledged([1, 0, 0, 0], 700_000);
        let exposure = (300_000 + haircut).min(1_000_000);
        let answer = four_numbers(&book_of(&terms, &[cash]));
        assert_eq!(answer, [1, 0, exposure, exposure], "{terms:?}");
    }
}

#[test]
fn every_cell_of_the_haircuts_for_lent_goods() {
    for (cell, haircut) in eligible_cells() {
        assert_lent(cell, haircut);
    }
    for cell in not_eligible_cells() {
        assert_lent(cell, 300_000);
    }
}

#[test]
fn lent_shares_of_edition_3_are_raised_by_30_percent() {
    // As the paper's repo of 100 in type 8 at n = 10, which is raised to 125.
    let terms = Terms {
        amount: 100,
        kind: 1,
        interval: 6,
        lent_goods: 8,
        ..terms_of([3, 4, 0], 3)
    };
    for (cash, exposure) in [(10, 100), (30, 100), (31, 99), (129, 1), (130, 0)] {
        let record = deal(terms, &[pledged([1, 0, 0, 0], cash)], &[]);
        assert_eq!(report(&record).exposure, exposure, "{cash}");
    }
}

#[test]
fn the_currency_haircut_stays_8_percent() {
    for (place, period) in PERIODS.into_iter().enumerate() {
        let terms = terms_in(3, period);
        // Gold at 20 and the currency at 8 percent, each scaled by itself.
        let gold = Collateral {
            currency: 840,
            ..pledged([9, 0, 0, 0], 1_000_000)
        };
        let haircuts = scaled(200_000)[place] + scaled(80_000)[place];
        let value = 1_000_000_u64.saturating_sub(haircuts);
        assert_eq!(outcome_of_collateral(terms, gold), Valued(value));
    }
    // A guarantee's uses n = interval + 9, here 10 and 30: 80,000 × √3 is
    // 138,564.06.
    for (interval, value) in [(1, 920_000), (21, 861_435)] {
        let guarantee = Guarantee {
            amount: 1_000_000,
            currency: 840,
            ..GUARANTEE
        };
        let terms = terms_in(3, (3, interval));
        assert_eq!(outcome_of_guarantee(terms, guarantee), Valued(value));
    }
}

/// Other issuers' haircuts by document 01, in its bands.
const OTHER_ISSUERS_2019: [(&[u64], [u64; 2]); 3] = [
    (&[1, 360], [10_000, 20_000]),
    (&[361, 1_080, 1_081, 1_800], [40_000, 60_000]),
    (&[1_801, 3_600, 3_601, 100_000], [80_000, 120_000]),
];

#[test]
fn editions_1_and_2_keep_the_haircuts_of_2019() {
    let mut cells = vec![
        ([7, 0, 0, 0], 150_000),
        ([8, 0, 0, 0], 250_000),
        ([9, 0, 0, 0], 150_000),
    ];
    for (days, haircuts) in OTHER_ISSUERS_2019 {
        for &life in days {
            cells.extend(rated(3, life, haircuts));
            cells.extend(rated(4, life, haircuts));
            cells.push(([4, 0, life, 1], haircuts[1]));
        }
    }
    for edition in [1, 2] {
        let terms = terms_in(edition, (2, 1));
        for &(cell, taken) in &cells {
            let answer = four_numbers(&book_of(&terms, &[pledged(cell, 1_000_000)]));
            assert_eq!(answer, [1, 0, taken, taken], "{edition} {cell:?}");
        }
    }
}
