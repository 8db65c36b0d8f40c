//! The figures at the edges of document 01, each taken from the report of a
//! whole deal.

use crate::sample::{held, left_out, valued, whole, CASH, GUARANTEE, LOAN};
use crate::sums;
use hadlephoga::{Collateral, Guarantee, Outcome, Record, Report, Terms};

fn reported(terms: Terms, collateral: &[Collateral], guarantees: &[Guarantee]) -> Report {
    sums::reported(&Record::new(terms, collateral, &held(guarantees)))
}

/// What becomes of one item of collateral of a loan with this kind and interval.
fn collateral(kind: u64, interval: u64, item: Collateral) -> Outcome {
    let terms = Terms {
        kind,
        interval,
        ..LOAN
    };
    reported(terms, &[item], &[]).collateral[0]
}

/// Debt of 1,000,000, so that its value is a million less its scaled haircut.
fn debt(goods: u64, step: u64, issue_life: u64) -> Collateral {
    Collateral {
        goods,
        step,
        issue_life,
        ..CASH
    }
}

/// A million that loses this by its haircut, or by its term.
fn by_haircut(loss: u64) -> Outcome {
    valued(1_000_000 - loss, [loss, 0, 0])
}

fn by_maturity(loss: u64) -> Outcome {
    valued(1_000_000 - loss, [0, loss, 0])
}

fn in_dollars(item: Collateral) -> Collateral {
    Collateral {
        currency: 840,
        ..item
    }
}

#[test]
fn scaling() {
    // 80000 for another currency; n is 5, 10, 20.
    assert_eq!(collateral(1, 1, in_dollars(CASH)), by_haircut(56569));
    assert_eq!(collateral(2, 1, in_dollars(CASH)), by_haircut(80000));
    assert_eq!(collateral(3, 1, in_dollars(CASH)), by_haircut(113138));
    assert_eq!(collateral(3, 1, in_dollars(CASH)).value(), 886862);
    // 10000, n 40.
    assert_eq!(collateral(3, 21, debt(3, 1, 360)), by_haircut(20000));
}

#[test]
fn haircut_above_the_whole_is_the_value_0() {
    assert_eq!(collateral(3, 250, debt(8, 0, 0)), by_haircut(1_000_000));
    let loan = Terms {
        interval: 250,
        ..LOAN
    };
    assert_eq!(reported(loan, &[debt(8, 0, 0)], &[]).exposure, 1_000_000);
}

#[test]
fn life_bands() {
    assert_eq!(collateral(2, 1, debt(3, 3, 360)), by_haircut(20000));
    assert_eq!(collateral(2, 1, debt(3, 3, 361)), by_haircut(60000));
}

#[test]
fn mismatch() {
    let pledge = |residual_term, original_term| Collateral {
        residual_term,
        original_term,
        ..CASH
    };
    let lost = |residual_term, original_term| {
        let outcome = collateral(3, 1, pledge(residual_term, original_term));
        (outcome.value(), outcome)
    };
    assert_eq!(lost(900, 1080), (473684, by_maturity(526316)));
    assert_eq!(lost(91, 1080), (584, by_maturity(999416)));
    assert_eq!(lost(90, 1080), (0, left_out(26, 1_000_000)));
    assert_eq!(lost(300, 359), (0, left_out(25, 1_000_000)));
    // 1,000,000 × 210 / 1,710
    assert_eq!(lost(300, 360), (122807, by_maturity(877193)));
}

#[test]
fn guarantee_in_another_currency() {
    let guarantee = Guarantee {
        currency: 840,
        ..GUARANTEE
    };
    for kind in 1..=3 {
        let report = reported(Terms { kind, ..LOAN }, &[], &[guarantee]);
        assert_eq!(report.guarantees[0].outcome, valued(184000, [16000, 0, 0]));
        assert_eq!(report.guarantees[0].portion, 184000);
        assert_eq!(report.rest, 816000);
    }
}

#[test]
fn lent_equity() {
    let repo = Terms {
        amount: 100,
        kind: 1,
        interval: 6,
        lent_type: 8,
        ..LOAN
    };
    let exposure = |amount| reported(repo, &[Collateral { amount, ..CASH }], &[]).exposure;
    // Raised to 125, and never above the deal's amount.
    assert_eq!(exposure(10), 100);
    assert_eq!(exposure(25), 100);
    assert_eq!(exposure(26), 99);
    assert_eq!(exposure(124), 1);
    assert_eq!(exposure(125), 0);
    assert_eq!(exposure(126), 0);
}

#[test]
fn cover_in_rising_order_of_weight() {
    let loan = Terms {
        amount: 100,
        ..LOAN
    };
    let heavy = Guarantee {
        amount: 80,
        class: 2,
        ..GUARANTEE
    };
    let light = Guarantee {
        amount: 60,
        ..GUARANTEE
    };
    let report = reported(loan, &[], &[heavy, light]);
    assert_eq!(report.exposure, 100);
    assert_eq!(report.guarantees[0].outcome, whole(80));
    assert_eq!(report.guarantees[0].portion, 40);
    assert_eq!(report.guarantees[1].portion, 60);
    assert_eq!(report.rest, 0);
    assert_eq!(report.weighted_amount, 8);
}

#[test]
fn retail() {
    let retail = |amount| {
        let terms = Terms {
            amount,
            class: 4,
            ..LOAN
        };
        reported(terms, &[], &[]).weighted_amount
    };
    assert_eq!(retail(1), 1);
    assert_eq!(retail(0), 0);
}

#[test]
fn provider_of_equal_weight() {
    let loan = Terms { step: 2, ..LOAN };
    let bank = Guarantee {
        class: 2,
        step: 2,
        ..GUARANTEE
    };
    let cover = reported(loan, &[], &[bank]).guarantees[0];
    assert_eq!(cover.outcome, left_out(29, 200_000));
    assert_eq!(cover.portion, 0);
}

#[test]
fn places_past_a_count_hold_nothing() {
    let report = reported(LOAN, &[CASH], &[GUARANTEE]);
    assert_eq!(report.collateral[1..], [whole(0); 15]);
    assert!(report.guarantees[1..]
        .iter()
        .all(|cover| *cover == Default::default()));
}
