//! The risk weights of edition 3, the tables of 2023 (02: L9): every cell, what
//! they do to ground 29 and to the order of cover, and the floor. The expected
//! figures are worked out from the papers.

mod common;

use common::*;
use reference::{report, Guarantee, Terms};
use Bare::{LeftOut, Valued};

/// Class, and the weights at steps 1 to 6 and unrated, as document 01 prints its
/// table, with what L9 changes.
const WEIGHTS: [(u64, [u64; 7]); 3] = [
    (1, [0, 20, 50, 100, 100, 150, 100]),
    (2, [20, 30, 50, 100, 100, 150, 150]),
    (3, [20, 50, 75, 100, 150, 150, 100]),
];
const PRINTED_STEPS: [u64; 7] = [1, 2, 3, 4, 5, 6, 0];

#[test]
fn every_cell_of_the_weights_for_counterparties() {
    for (class, row) in WEIGHTS {
        for (step, weight) in PRINTED_STEPS.into_iter().zip(row) {
            // A sovereign at step 1 is no floor.
            let terms = terms_of([class, step, u64::from(class > 1)], 3);
            let answer = four_numbers(&book_of(&terms, &[]));
            assert_eq!(answer, [1, 0, 1_000_000, weight * 10_000], "{terms:?}");
        }
    }
    let retail = terms_of([4, 0, 0], 3);
    let answer = four_numbers(&book_of(&retail, &[]));
    assert_eq!(answer, [1, 0, 1_000_000, 750_000]);
}

#[test]
fn every_cell_of_the_weights_for_providers() {
    // The counterparty weighs 150: a provider at 150 is left out.
    let terms = terms_of([3, 6, 1], 3);
    for (class, row) in WEIGHTS {
        for (step, weight) in PRINTED_STEPS.into_iter().zip(row) {
            let item = Guarantee {
                amount: 1_000_000,
                ..guarantee_of([class, step, u64::from(class > 1)])
            };
            let (weighted, outcome) = match (class, step) {
                (3, 0) => (1_500_000, LeftOut(28)),
                _ if weight == 150 => (1_500_000, LeftOut(29)),
                _ => (weight * 10_000, Valued(1_000_000)),
            };
            let book = book_of(&terms, &[]) + &guarantee_line(&item, 3);
            assert_eq!(four_numbers(&book), [1, 0, 1_000_000, weighted], "{item:?}");
            assert_eq!(outcome_of_guarantee(terms, item), outcome, "{item:?}");
        }
    }
}

/// Ground of a guarantee of 40 for a deal of 100, or 0, and the weighted amount.
fn guaranteed(counterparty: Party, provider: Party, edition: u64) -> (u8, u64) {
    let terms = Terms {
        amount: 100,
        ..terms_of(counterparty, edition)
    };
    let item = Guarantee {
        amount: 40,
        ..guarantee_of(provider)
    };
    let report = report(&deal(terms, &[], &[item]));
    let (outcome, portion) = report.guarantees[0];
    match (bare(outcome, 40), portion) {
        (LeftOut(ground), 0) => (ground, report.weighted),
        (Valued(40), 40) => (0, report.weighted),
        other => panic!("{other:?}"),
    }
}

/// Counterparty, provider, and what they give under edition 2 and edition 3.
type Pair = (Party, Party, (u8, u64), (u8, u64));

fn assert_pairs(pairs: &[Pair]) {
    for &(counterparty, provider, in_2, in_3) in pairs {
        let pair = (counterparty, provider);
        assert_eq!(guaranteed(counterparty, provider, 2), in_2, "{pair:?}");
        assert_eq!(guaranteed(counterparty, provider, 3), in_3, "{pair:?}");
    }
}

#[test]
fn ground_29_where_a_bank_at_step_2_weighs_30() {
    assert_pairs(&[
        // For counterparties at 50: 40 × 30 + 60 × 50 = 4,200.
        ([3, 2, 0], [2, 2, 0], (29, 50), (0, 42)),
        ([2, 3, 0], [2, 2, 0], (29, 50), (0, 42)),
        ([1, 3, 0], [2, 2, 0], (29, 50), (0, 42)),
        // Its own guarantors: those at 20 stay, 40 × 20 + 60 × 50 = 3,800 and
        // 40 × 20 + 60 × 30 = 2,600; those at 50 were and are left out.
        ([2, 2, 0], [2, 1, 0], (0, 38), (0, 26)),
        ([2, 2, 0], [1, 2, 0], (0, 38), (0, 26)),
        ([2, 2, 0], [3, 1, 0], (0, 38), (0, 26)),
        ([2, 2, 0], [2, 2, 0], (29, 50), (29, 30)),
        ([2, 2, 0], [2, 3, 0], (29, 50), (29, 30)),
        ([2, 2, 0], [1, 3, 0], (29, 50), (29, 30)),
        ([2, 2, 0], [3, 2, 0], (29, 50), (29, 30)),
    ]);
}

#[test]
fn ground_29_where_class_3_at_step_3_weighs_75() {
    assert_pairs(&[
        // For counterparties at 100: 40 × 75 + 60 × 100 = 9,000.
        ([3, 4, 0], [3, 3, 0], (29, 100), (0, 90)),
        ([3, 0, 1], [3, 3, 0], (29, 100), (0, 90)),
        ([1, 0, 0], [3, 3, 0], (29, 100), (0, 90)),
        // Not for those at 75, which is not below 75.
        ([3, 3, 0], [3, 3, 0], (29, 100), (29, 75)),
        ([4, 0, 0], [3, 3, 0], (29, 75), (29, 75)),
        // Its guarantors at 50: 40 × 50 + 60 × 100 = 8,000 and 40 × 50 + 60 × 75
        // = 6,500; those at 100 were and are left out.
        ([3, 3, 0], [2, 3, 0], (0, 80), (0, 65)),
        ([3, 3, 0], [3, 2, 0], (0, 80), (0, 65)),
        ([3, 3, 0], [1, 4, 0], (29, 100), (29, 75)),
        ([3, 3, 0], [2, 4, 0], (29, 100), (29, 75)),
    ]);
}

#[test]
fn ground_29_where_an_unrated_bank_weighs_150() {
    assert_pairs(&[
        // Nobody weighs more: its guarantees are left out. Before, 40 × 50 + 60 ×
        // 150 = 11,000, with a sovereign at 100 13,000.
        ([3, 6, 0], [2, 0, 1], (0, 110), (29, 150)),
        ([3, 6, 0], [2, 0, 4], (0, 130), (29, 150)),
        ([2, 0, 6], [2, 0, 1], (0, 110), (29, 150)),
        ([3, 4, 0], [2, 0, 1], (0, 80), (29, 100)),
        ([4, 0, 0], [2, 0, 1], (0, 65), (29, 75)),
        ([2, 0, 1], [2, 0, 1], (29, 50), (29, 150)),
        // For it: 40 × 100 + 60 × 150 = 13,000, at 75 12,000, at 30 10,200.
        ([2, 0, 1], [1, 4, 0], (29, 50), (0, 130)),
        ([2, 0, 1], [1, 0, 0], (29, 50), (0, 130)),
        ([2, 0, 1], [2, 5, 0], (29, 50), (0, 130)),
        ([2, 0, 1], [3, 3, 0], (29, 50), (0, 120)),
        ([2, 0, 1], [2, 2, 0], (29, 50), (0, 102)),
        // Providers at 150 and unrated other entities are left out as before.
        ([2, 0, 1], [1, 6, 0], (29, 50), (29, 150)),
        ([2, 0, 1], [3, 5, 0], (29, 50), (29, 150)),
        ([2, 0, 1], [3, 0, 1], (28, 50), (28, 150)),
    ]);
}

#[test]
fn the_floor_holds_under_edition_3() {
    let weighted = |class, sovereign, edition| {
        let terms = terms_of([class, 0, sovereign], edition);
        four_numbers(&book_of(&terms, &[]))[3] / 10_000
    };
    for sovereign in 0..=6 {
        // No sovereign weighs more than the unrated bank itself.
        assert_eq!(weighted(2, sovereign, 3), 150, "{sovereign}");
        let corporate = if sovereign == 6 { 150 } else { 100 };
        assert_eq!(weighted(3, sovereign, 3), corporate, "{sovereign}");
    }
    assert_pairs(&[
        // An unrated corporate of a sovereign at 150 weighs 150: providers at 100
        // count, 40 × 100 + 60 × 150 = 13,000; one of a better sovereign weighs 100.
        ([3, 0, 6], [1, 0, 0], (0, 130), (0, 130)),
        ([3, 0, 5], [1, 0, 0], (29, 100), (29, 100)),
        ([3, 0, 6], [3, 3, 6], (0, 130), (0, 120)),
        // A rated party has no floor: 40 × 30 + 60 × 50 and 40 × 75 + 60 × 100.
        ([3, 2, 6], [2, 2, 6], (29, 50), (0, 42)),
        ([3, 4, 6], [3, 3, 6], (29, 100), (0, 90)),
    ]);
}

#[test]
fn the_new_weights_decide_the_order_of_cover() {
    // Banks at steps 3 and 2, other entities at steps 4 and 3: weights 50, 50,
    // 100, 100 under edition 2 and 50, 30, 100, 75 under edition 3.
    let parties = [[2, 3, 0], [2, 2, 0], [3, 4, 0], [3, 3, 0]];
    let items = parties.map(|party| Guarantee {
        amount: 60,
        ..guarantee_of(party)
    });
    let covered = |edition, amount| {
        let terms = Terms {
            amount,
            ..terms_of([3, 6, 0], edition)
        };
        let report = report(&deal(terms, &[], &items));
        let portions = [0, 1, 2, 3].map(|place| report.guarantees[place].1);
        (portions, report.weighted)
    };
    assert_eq!(covered(2, 100), ([60, 40, 0, 0], 50));
    // 40 × 50 + 60 × 30 = 3,800.
    assert_eq!(covered(3, 100), ([40, 60, 0, 0], 38));
    // 120 × 50 + 80 × 100 = 14,000.
    assert_eq!(covered(2, 200), ([60, 60, 60, 20], 140));
    // 60 × 50 + 60 × 30 + 20 × 100 + 60 × 75 = 11,300.
    assert_eq!(covered(3, 200), ([60, 60, 20, 60], 113));
}
