//! The example book and the figures at the edges, as document 01 prints them.

mod common;

use common::*;
use reference::{printed, printed_reports, report, Collateral, Guarantee, Terms};
use Bare::{LeftOut, Valued};

#[test]
fn example_book() {
    let answer = "\
RESULT 1
1 0 611314 411314
2 3 5 0
3 0 900 675
";
    assert_eq!(printed(&tabbed(EXAMPLE)), tabbed(answer));
}

#[test]
fn reports_of_the_example_book() {
    let reports = "\
REPORT 2
1 EXPOSURE 611314
1 COLLATERAL 1 VALUE 388686 11314 0 0
1 GUARANTEE 1 VALUE 200000 0 0 0 200000
1 REST 411314
1 WEIGHTED 411314
2 REFUSED 3 5
3 EXPOSURE 900
3 REST 900
3 WEIGHTED 675
";
    assert_eq!(printed_reports(&tabbed(EXAMPLE)), tabbed(reports));
}

#[test]
fn haircut_above_the_whole_leaves_no_value() {
    let terms = Terms {
        interval: 250,
        ..TERMS
    };
    let shares = Collateral { goods: 8, ..CASH };
    assert_eq!(outcome_of_collateral(terms, shares), Valued(0));
}

#[test]
fn haircut_changes_with_the_band_of_issue_life() {
    // Kind 2 with interval 1 has n = 10: the table haircut itself.
    let terms = Terms { kind: 2, ..TERMS };
    let bond = |life| Collateral {
        amount: 1_000_000,
        goods: 3,
        step: 3,
        life,
        ..CASH
    };
    assert_eq!(outcome_of_collateral(terms, bond(360)), Valued(980_000));
    assert_eq!(outcome_of_collateral(terms, bond(361)), Valued(940_000));
}

#[test]
fn maturity_mismatch_of_cash() {
    let cash = |residual| Collateral {
        amount: 1_000_000,
        residual,
        original: 1_080,
        ..CASH
    };
    assert_eq!(outcome_of_collateral(TERMS, cash(900)), Valued(473_684));
    assert_eq!(outcome_of_collateral(TERMS, cash(91)), Valued(584));
    assert_eq!(outcome_of_collateral(TERMS, cash(90)), LeftOut(26));
}

#[test]
fn original_term_under_a_year() {
    let cash = |original| Collateral {
        residual: 300,
        original,
        ..CASH
    };
    assert_eq!(outcome_of_collateral(TERMS, cash(359)), LeftOut(25));
    assert!(matches!(outcome_of_collateral(TERMS, cash(360)), Valued(_)));
}

#[test]
fn cash_in_another_currency() {
    let cash = Collateral {
        amount: 1_000_000,
        currency: 840,
        ..CASH
    };
    assert_eq!(outcome_of_collateral(TERMS, cash), Valued(886_862));
}

#[test]
fn guarantee_in_another_currency() {
    let guarantee = Guarantee {
        amount: 200_000,
        currency: 840,
        ..GUARANTEE
    };
    for kind in 1..=3 {
        let terms = Terms { kind, ..TERMS };
        assert_eq!(outcome_of_guarantee(terms, guarantee), Valued(184_000));
    }
}

#[test]
fn raised_exposure_never_exceeds_the_amount() {
    let terms = Terms {
        amount: 100,
        kind: 1,
        interval: 6,
        lent_goods: 8,
        ..TERMS
    };
    let exposure = |amount| {
        let cash = Collateral { amount, ..CASH };
        report(&deal(terms, &[cash], &[])).exposure
    };
    assert_eq!(exposure(10), 100);
    assert_eq!(exposure(25), 100);
    assert_eq!(exposure(26), 99);
    assert_eq!(exposure(124), 1);
    assert_eq!(exposure(125), 0);
    assert_eq!(exposure(126), 0);
}

#[test]
fn cover_rises_in_weight() {
    let terms = Terms {
        amount: 100,
        ..TERMS
    };
    let bank = Guarantee {
        amount: 80,
        class: 2,
        ..GUARANTEE
    };
    let sovereign = Guarantee {
        amount: 60,
        ..GUARANTEE
    };
    let report = report(&deal(terms, &[], &[bank, sovereign]));
    assert_eq!(report.exposure, 100);
    assert_eq!(report.guarantees[0], (whole(80), 40));
    assert_eq!(report.guarantees[1], (whole(60), 60));
    assert_eq!(report.rest, 0);
    assert_eq!(report.weighted, 8);
}

#[test]
fn weighted_amount_rounds_up() {
    let retail = |amount| {
        let terms = Terms {
            amount,
            class: 4,
            ..TERMS
        };
        report(&deal(terms, &[], &[])).weighted
    };
    assert_eq!(retail(1), 1);
    assert_eq!(retail(0), 0);
}

#[test]
fn bank_at_step_2_for_a_corporate_at_step_2() {
    let terms = Terms { step: 2, ..TERMS };
    let bank = Guarantee {
        class: 2,
        step: 2,
        ..GUARANTEE
    };
    assert_eq!(outcome_of_guarantee(terms, bank), LeftOut(29));
}

#[test]
fn misreadings_are_shut_out() {
    let repo = Terms { kind: 1, ..TERMS };
    // Scaling the sum of the two haircuts would leave 1,000,000 × (1 − 0.12 × √0.5).
    let bond = Collateral {
        amount: 1_000_000,
        goods: 3,
        step: 1,
        life: 720,
        currency: 840,
        ..CASH
    };
    let scaled_apart = 1_000_000 - 28_285 - 56_569;
    assert_eq!(outcome_of_collateral(repo, bond), Valued(scaled_apart));
    // A bond that outlives the deal does not mend a pledge that ends before it.
    let long_bond = Collateral {
        life: 100_000,
        residual: 90,
        ..bond
    };
    assert_eq!(outcome_of_collateral(repo, long_bond), LeftOut(26));
    // Two portions of 1 at 20 per cent: 1 and not 2.
    let bank = Guarantee {
        amount: 1,
        class: 2,
        ..GUARANTEE
    };
    let terms = Terms { amount: 2, ..TERMS };
    assert_eq!(report(&deal(terms, &[], &[bank, bank])).weighted, 1);
}
