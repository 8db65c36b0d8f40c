//! Deals revalued daily (02: L4). Nothing is stored for them in this crate; the
//! figures stand here, worked out apart from it, and whole reports must show
//! them to the unit, as those of the periods next to them.

mod common;

use common::*;
use reference::{report, Collateral, Guarantee, Outcome, Report, Terms, Valuation, AMOUNT_LIMIT};
use std::collections::BTreeSet;

/// Kind and interval of a deal, and its n.
type Period = [u64; 3];

const REVALUED_DAILY: [Period; 3] = [[1, 1, 5], [2, 1, 10], [3, 1, 20]];
/// The other deals with the same n or one next to it.
const OTHERS: [Period; 12] = [
    [1, 2, 6],
    [1, 5, 9],
    [1, 6, 10],
    [1, 7, 11],
    [2, 2, 11],
    [1, 15, 19],
    [2, 10, 19],
    [1, 16, 20],
    [2, 11, 20],
    [1, 17, 21],
    [2, 12, 21],
    [3, 2, 21],
];

/// The holding periods n of the figures: those of deals revalued daily, then
/// those next to them.
const DAYS: [u64; 8] = [5, 10, 20, 6, 9, 11, 19, 21];

/// Every haircut of the tables of 2019 and 2023 and its figure at each n.
#[rustfmt::skip]
const FIGURES: [(u64, [u64; 8]); 15] = [
    (0, [0, 0, 0, 0, 0, 0, 0, 0]),
    (5_000, [3_536, 5_000, 7_072, 3_873, 4_744, 5_245, 6_893, 7_246]),
    (10_000, [7_072, 10_000, 14_143, 7_746, 9_487, 10_489, 13_785, 14_492]),
    (20_000, [14_143, 20_000, 28_285, 15_492, 18_974, 20_977, 27_569, 28_983]),
    (30_000, [21_214, 30_000, 42_427, 23_238, 28_461, 31_465, 41_353, 43_475]),
    (40_000, [28_285, 40_000, 56_569, 30_984, 37_948, 41_953, 55_137, 57_966]),
    (60_000, [42_427, 60_000, 84_853, 46_476, 56_921, 62_929, 82_705, 86_949]),
    (80_000, [56_569, 80_000, 113_138, 61_968, 75_895, 83_905, 110_273, 115_932]),
    (120_000, [84_853, 120_000, 169_706, 92_952, 113_842, 125_858, 165_409, 173_897]),
    (150_000, [106_067, 150_000, 212_133, 116_190, 142_303, 157_322, 206_761, 217_371]),
    (160_000, [113_138, 160_000, 226_275, 123_936, 151_790, 167_810, 220_545, 231_863]),
    (200_000, [141_422, 200_000, 282_843, 154_920, 189_737, 209_762, 275_681, 289_828]),
    (240_000, [169_706, 240_000, 339_412, 185_904, 227_684, 251_715, 330_818, 347_794]),
    (250_000, [176_777, 250_000, 353_554, 193_650, 237_171, 262_203, 344_602, 362_285]),
    (300_000, [212_133, 300_000, 424_265, 232_380, 284_605, 314_643, 413_522, 434_742]),
];

const CURRENCY: u64 = 80_000;

/// A millionth of the amount of every deal and item here, so that amounts show
/// haircuts whole.
const MILLIONTH: u64 = AMOUNT_LIMIT / 1_000_000;

fn figure(haircut: u64, n: u64) -> u64 {
    let row = FIGURES.iter().find(|row| row.0 == haircut);
    let place = DAYS.iter().position(|&days| days == n);
    row.expect("a haircut of the tables").1[place.expect("days of the figures")]
}

#[test]
fn each_figure_is_the_least_that_is_enough() {
    for (haircut, figures) in FIGURES {
        for (h, n) in figures.into_iter().zip(DAYS) {
            let wanted = u128::from(haircut) * u128::from(haircut) * u128::from(n);
            let is_enough = |h: u64| 10 * u128::from(h) * u128::from(h) >= wanted;
            assert!(is_enough(h), "{haircut} {n}");
            assert!(h == 0 || !is_enough(h - 1), "{haircut} {n}");
        }
    }
}

/// Every type and step of goods at both ends of each band of life, with both
/// listed entries.
fn all_goods() -> Vec<Goods> {
    let lives = [
        1, 360, 361, 1_080, 1_081, 1_800, 1_801, 3_600, 3_601, 100_000,
    ];
    let mut all: Vec<Goods> = [1, 7, 8, 9].map(|goods| [goods, 0, 0, 0]).to_vec();
    for (goods, step) in (2..=6).flat_map(|goods| (0..=6).map(move |step| (goods, step))) {
        for life in lives {
            all.extend([0, 1].map(|listed| [goods, step, life, listed]));
        }
    }
    all
}

#[test]
fn the_figures_are_of_the_haircuts_of_the_tables_and_no_others() {
    for (edition, others) in [
        (1, &[200_000, 300_000][..]),
        (2, &[200_000, 300_000]),
        (3, &[250_000]),
    ] {
        let mut found = BTreeSet::from([CURRENCY]);
        for goods in all_goods() {
            found.insert(lent_haircut(goods, edition));
            found.extend(is_eligible(goods).then(|| table_haircut(goods, edition)));
        }
        let listed = FIGURES.map(|(haircut, _)| haircut).into_iter();
        let expected = listed.filter(|haircut| !others.contains(haircut));
        assert_eq!(found, expected.collect(), "{edition}");
    }
}

/// Every edition with every period.
fn periods() -> Vec<(u64, Period)> {
    let all = || REVALUED_DAILY.into_iter().chain(OTHERS);
    let under = |edition| all().map(move |period| (edition, period));
    EDITIONS.into_iter().flat_map(under).collect()
}

/// A counterparty at 100 percent that is lent the goods.
fn lending(goods: Goods, edition: u64, [kind, interval, _]: Period) -> Terms {
    let [lent_goods, lent_step, lent_life, _] = goods;
    Terms {
        amount: AMOUNT_LIMIT,
        kind,
        interval,
        lent_goods,
        lent_step,
        lent_life,
        ..terms_of([3, 4, 0], edition)
    }
}

/// The report of a deal with these outcomes of its collateral, with E* in
/// millionths of the amount and no guarantee.
fn uncovered(outcomes: &[Outcome], exposure: u64) -> Report {
    let mut collateral = [Outcome::default(); 16];
    collateral[..outcomes.len()].copy_from_slice(outcomes);
    Report {
        refusal: 0,
        exposure: exposure * MILLIONTH,
        collateral,
        guarantees: [(Outcome::default(), 0); 16],
        rest: exposure * MILLIONTH,
        weighted: exposure * MILLIONTH,
    }
}

/// The whole report, and the answer to a book of the deal alone.
fn assert_report(terms: Terms, items: &[Collateral], expected: &Report) {
    let found = report(&deal(terms, items, &[]));
    assert_eq!(&found, expected, "{terms:?} {items:?}");
    let answer = four_numbers(&book_of(&terms, items));
    assert_eq!(answer, [1, 0, expected.exposure, expected.weighted]);
}

fn left_by(haircuts: u64) -> Outcome {
    Outcome::Valued(Valuation {
        value: AMOUNT_LIMIT - haircuts * MILLIONTH,
        haircut_loss: haircuts * MILLIONTH,
        ..Valuation::default()
    })
}

const IN_CASH: Goods = [1, 0, 0, 0];

#[test]
fn every_haircut_of_collateral() {
    for (edition, period) in periods() {
        for goods in all_goods().into_iter().filter(|goods| is_eligible(*goods)) {
            let terms = lending(IN_CASH, edition, period);
            let own = figure(table_haircut(goods, edition), period[2]);
            let item = pledged(goods, AMOUNT_LIMIT);
            assert_report(terms, &[item], &uncovered(&[left_by(own)], own));

            let both = own + figure(CURRENCY, period[2]);
            let foreign = Collateral {
                currency: 840,
                ..item
            };
            assert_report(terms, &[foreign], &uncovered(&[left_by(both)], both));
        }
    }
}

#[test]
fn every_haircut_of_goods_lent() {
    let cash = pledged(IN_CASH, AMOUNT_LIMIT);
    for (edition, period) in periods() {
        for goods in all_goods() {
            let terms = lending(goods, edition, period);
            let raised = figure(lent_haircut(goods, edition), period[2]);
            assert_report(terms, &[cash], &uncovered(&[left_by(0)], raised));
        }
    }
}

#[test]
fn goods_not_eligible_have_a_haircut_only_where_lent() {
    let cash = pledged(IN_CASH, AMOUNT_LIMIT);
    for (edition, period) in periods() {
        for goods in all_goods().into_iter().filter(|goods| !is_eligible(*goods)) {
            let terms = lending(goods, edition, period);
            let raised = figure(lent_haircut(goods, edition), period[2]);
            let items = [pledged(goods, AMOUNT_LIMIT), cash];
            let outcomes = [left_out(24, AMOUNT_LIMIT), left_by(0)];
            assert_report(terms, &items, &uncovered(&outcomes, raised));
        }
    }
}

const FOREIGN_GUARANTEE: Guarantee = Guarantee {
    amount: AMOUNT_LIMIT,
    currency: 840,
    ..GUARANTEE
};

#[test]
fn guarantees_of_deals_revalued_daily_have_10_days_for_every_kind() {
    // Intervals and the n of guarantees, which is never below 10.
    for [interval, n] in [[1, 10], [2, 11], [10, 19], [11, 20], [12, 21]] {
        for (edition, kind) in EDITIONS.into_iter().flat_map(|e| [1, 2, 3].map(|k| (e, k))) {
            let terms = Terms {
                kind,
                interval,
                ..lending(IN_CASH, edition, REVALUED_DAILY[0])
            };
            let taken = figure(CURRENCY, n);
            let mut expected = uncovered(&[], taken);
            expected.exposure = AMOUNT_LIMIT;
            expected.guarantees[0] = (left_by(taken), AMOUNT_LIMIT - taken * MILLIONTH);
            let found = report(&deal(terms, &[], &[FOREIGN_GUARANTEE]));
            assert_eq!(found, expected, "{terms:?}");
        }
    }
}

#[test]
fn collateral_and_guarantees_of_one_deal_have_days_of_their_own() {
    for (edition, period) in EDITIONS
        .into_iter()
        .flat_map(|e| REVALUED_DAILY.map(|p| (e, p)))
    {
        let terms = lending(IN_CASH, edition, period);
        let cash = Collateral {
            currency: 840,
            ..pledged(IN_CASH, AMOUNT_LIMIT)
        };
        let exposure = figure(CURRENCY, period[2]);
        let mut expected = uncovered(&[left_by(exposure)], exposure);
        expected.guarantees[0] = (left_by(80_000), exposure * MILLIONTH);
        (expected.rest, expected.weighted) = (0, 0);
        let found = report(&deal(terms, &[cash], &[FOREIGN_GUARANTEE]));
        assert_eq!(found, expected, "{terms:?}");
    }
}
