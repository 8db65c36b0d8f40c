//! The grounds for leaving an item out, their order, and the cover of E*.

mod common;

use common::*;
use reference::{report, Collateral, Guarantee, Terms};
use Bare::{LeftOut, Valued};

#[test]
fn grounds_of_collateral_in_order() {
    // All grounds apply at first; each is then mended in turn.
    let mut item = Collateral {
        goods: 6,
        step: 1,
        life: 100,
        residual: 90,
        original: 359,
        lawful: 0,
        unrelated: 0,
        unreflected: 0,
        ..CASH
    };
    assert_eq!(outcome_of_collateral(TERMS, item), LeftOut(21));
    item.lawful = 1;
    assert_eq!(outcome_of_collateral(TERMS, item), LeftOut(22));
    item.unrelated = 1;
    assert_eq!(outcome_of_collateral(TERMS, item), LeftOut(23));
    item.unreflected = 1;
    assert_eq!(outcome_of_collateral(TERMS, item), LeftOut(24));
    item.goods = 5;
    assert_eq!(outcome_of_collateral(TERMS, item), LeftOut(25));
    item.original = 360;
    assert_eq!(outcome_of_collateral(TERMS, item), LeftOut(26));
    item.residual = 91;
    assert_eq!(outcome_of_collateral(TERMS, item), Valued(0));
    item.amount = 1_000_000;
    assert!(matches!(outcome_of_collateral(TERMS, item), Valued(1..)));
}

#[test]
fn grounds_of_a_guarantee_in_order() {
    let mut item = Guarantee {
        class: 3,
        step: 0,
        residual: 90,
        original: 359,
        lawful: 0,
        direct: 0,
        unreflected: 0,
        ..GUARANTEE
    };
    assert_eq!(outcome_of_guarantee(TERMS, item), LeftOut(21));
    item.lawful = 1;
    assert_eq!(outcome_of_guarantee(TERMS, item), LeftOut(27));
    item.direct = 1;
    assert_eq!(outcome_of_guarantee(TERMS, item), LeftOut(23));
    item.unreflected = 1;
    assert_eq!(outcome_of_guarantee(TERMS, item), LeftOut(28));
    item.step = 4;
    assert_eq!(outcome_of_guarantee(TERMS, item), LeftOut(25));
    item.original = 360;
    assert_eq!(outcome_of_guarantee(TERMS, item), LeftOut(26));
    item.residual = 91;
    assert_eq!(outcome_of_guarantee(TERMS, item), LeftOut(29));
    item.step = 2;
    assert_eq!(outcome_of_guarantee(TERMS, item), Valued(0));
    item.residual = 1_800;
    item.original = 1_800;
    assert_eq!(outcome_of_guarantee(TERMS, item), Valued(1_000));
}

#[test]
fn eligibility_by_type_and_step() {
    for goods in 1..=9 {
        for step in 0..=6 {
            for listed in 0..=1 {
                let debt = (2..=6).contains(&goods);
                if !debt && step > 0 {
                    continue;
                }
                let item = Collateral {
                    goods,
                    step,
                    life: if debt { 500 } else { 0 },
                    listed,
                    ..CASH
                };
                let not_eligible = match goods {
                    2 => [0, 5, 6].contains(&step),
                    3 | 5 => step == 0 || step > 3,
                    4 => step > 3 || (step == 0 && listed == 0),
                    6 => true,
                    _ => false,
                };
                let left_out = outcome_of_collateral(TERMS, item) == LeftOut(24);
                assert_eq!(left_out, not_eligible, "{goods} {step} {listed}");
            }
        }
    }
}

#[test]
fn unrated_sovereigns_and_banks_may_guarantee() {
    let bank = Guarantee {
        class: 2,
        step: 0,
        ..GUARANTEE
    };
    assert_eq!(outcome_of_guarantee(TERMS, bank), Valued(1_000));
    // An unrated sovereign has weight 100: below 150 and not below 100.
    let sovereign = Guarantee {
        step: 0,
        ..GUARANTEE
    };
    assert_eq!(outcome_of_guarantee(TERMS, sovereign), LeftOut(29));
    let weak = Terms { step: 6, ..TERMS };
    assert_eq!(outcome_of_guarantee(weak, sovereign), Valued(1_000));
}

#[test]
fn listed_counts_for_unrated_bank_debt_alone() {
    let terms = Terms { kind: 2, ..TERMS };
    let paper = |goods, step, listed| Collateral {
        amount: 1_000_000,
        goods,
        step,
        life: 400,
        listed,
        ..CASH
    };
    let value = |goods, step, listed| outcome_of_collateral(terms, paper(goods, step, listed));
    assert_eq!(value(4, 0, 1), Valued(940_000));
    assert_eq!(value(4, 1, 1), Valued(960_000));
    assert_eq!(value(4, 1, 0), Valued(960_000));
    assert_eq!(value(3, 0, 1), LeftOut(24));
    assert_eq!(value(2, 0, 1), LeftOut(24));
}

#[test]
fn equal_weights_cover_in_order_of_adding() {
    let terms = Terms {
        amount: 100,
        ..TERMS
    };
    let bank = |amount, step| Guarantee {
        amount,
        class: 2,
        step,
        ..GUARANTEE
    };
    // Weights 50, 50, 50 (steps 3, 0, 2), then a left-out one, then weight 20.
    let lawless = Guarantee {
        lawful: 0,
        ..GUARANTEE
    };
    let items = [bank(30, 3), bank(30, 0), bank(30, 2), lawless, bank(30, 1)];
    let report = report(&deal(terms, &[], &items));
    let portions = report.guarantees.map(|(_, portion)| portion);
    assert_eq!(portions[..5], [30, 30, 10, 0, 30]);
    assert_eq!(portions[5..], [0; 11]);
    assert_eq!(report.guarantees[2].0, whole(30));
    assert_eq!(report.guarantees[3].0, left_out(21, 1_000));
    assert_eq!(report.rest, 0);
    assert_eq!(report.weighted, 35 + 6);
}

#[test]
fn a_guarantee_keeps_its_value_where_nothing_is_left_to_cover() {
    let cash = Collateral {
        amount: 1_000_000,
        ..CASH
    };
    let report = report(&deal(TERMS, &[cash], &[GUARANTEE]));
    assert_eq!(report.exposure, 0);
    assert_eq!(report.guarantees[0], (whole(1_000), 0));
    assert_eq!([report.rest, report.weighted], [0, 0]);
}

#[test]
fn the_largest_accepted_numbers() {
    let terms = Terms {
        amount: 1_000_000_000_000,
        step: 6,
        interval: 250,
        residual: 100_000,
        lent_goods: 8,
        ..TERMS
    };
    let cash = Collateral {
        amount: 1_000_000_000_000,
        residual: 100_000,
        original: 100_000,
        ..CASH
    };
    let guarantee = Guarantee {
        amount: 1_000_000_000_000,
        residual: 100_000,
        original: 100_000,
        ..GUARANTEE
    };
    let unprotected = report(&deal(terms, &[], &[]));
    assert_eq!(unprotected.exposure, 1_000_000_000_000);
    assert_eq!(unprotected.weighted, 1_500_000_000_000);
    let protected = report(&deal(terms, &[cash; 16], &[guarantee; 16]));
    assert_eq!(protected.collateral, [whole(1_000_000_000_000); 16]);
    assert_eq!([protected.exposure, protected.weighted], [0, 0]);
    assert_eq!(protected.guarantees, [(whole(1_000_000_000_000), 0); 16]);
}
