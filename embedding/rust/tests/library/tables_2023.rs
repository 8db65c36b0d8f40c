//! The tables of 2023: haircuts and weights of edition 3 as request L9 lists them,
//! and all else as under edition 2.

use crate::lines::{collateral_line, guarantee_line, headed, terms_line};
use crate::sample::{held, left_out, valued, whole, CASH, GUARANTEE, LOAN};
use crate::sums;
use hadlephoga::{answer_book, Collateral, Guarantee, Record, Report, Terms};

/// A holding period of ten days, for which the tables stand.
fn terms(edition: u64) -> Terms {
    Terms {
        kind: 2,
        edition,
        ..LOAN
    }
}

fn reported(terms: Terms, collateral: &[Collateral], guarantees: &[Guarantee]) -> Report {
    sums::reported(&Record::new(terms, collateral, &held(guarantees)))
}

fn pledge(goods: u64, step: u64, issue_life: u64) -> Collateral {
    Collateral {
        goods,
        step,
        issue_life,
        ..CASH
    }
}

/// In thousandths: what a million of collateral loses, by its haircut alone.
fn haircut(edition: u64, item: Collateral) -> u64 {
    let outcome = reported(terms(edition), &[item], &[]).collateral[0];
    let loss = 1_000_000 - outcome.value();
    assert_eq!(outcome, valued(outcome.value(), [loss, 0, 0]));
    loss / 1000
}

/// In thousandths: what lent goods raise, of an amount of which half is pledged.
fn raise(edition: u64, lent_type: u64, lent_step: u64, lent_issue_life: u64) -> u64 {
    let lent = Terms {
        lent_type,
        lent_step,
        lent_issue_life,
        ..terms(edition)
    };
    let amount = 500_000;
    let half = Collateral { amount, ..CASH };
    (reported(lent, &[half], &[]).exposure - 500_000) / 1000
}

/// First and last day of each band, with the haircuts at step 1 and at steps 2 and
/// 3 in thousandths.
const OTHER_ISSUERS: [(u64, u64, u64, u64); 5] = [
    (1, 360, 10, 20),
    (361, 1080, 30, 40),
    (1081, 1800, 40, 60),
    (1801, 3600, 60, 120),
    (3601, 100_000, 120, 200),
];

#[test]
fn five_bands_of_other_issuers() {
    for (first, last, best, second) in OTHER_ISSUERS {
        for (goods, life) in [(3, first), (3, last), (4, first), (4, last)] {
            for (step, due) in [(1, best), (2, second), (3, second)] {
                assert_eq!(haircut(3, pledge(goods, step, life)), due, "{goods} {life}");
                assert_eq!(raise(3, goods, step, life), due, "{goods} {life}");
            }
        }
        let unrated = Collateral {
            listed: 1,
            ..pledge(4, 0, last)
        };
        assert_eq!(haircut(3, unrated), second);
        assert_eq!(raise(3, 4, 0, last), 300);
    }
}

#[test]
fn equity_gold_and_lent_goods_that_are_not_eligible() {
    for (goods, earlier, later) in [(7, 150, 200), (8, 250, 300), (9, 150, 200)] {
        for (edition, due) in [(1, earlier), (2, earlier), (3, later)] {
            assert_eq!(haircut(edition, pledge(goods, 0, 0)), due);
            assert_eq!(raise(edition, goods, 0, 0), due);
        }
    }
    for (edition, due) in [(1, 250), (2, 250), (3, 300)] {
        assert_eq!(raise(edition, 6, 1, 360), due);
        assert_eq!(raise(edition, 2, 5, 360), due);
    }
}

/// Sovereign debt and securitisations in three bands, sovereign debt at step 4, cash
/// and another currency.
#[test]
fn what_is_not_listed_stays() {
    for life in [1, 360, 361, 1080, 1081, 1800, 1801, 3600, 3601, 100_000] {
        for (goods, step) in [(2, 1), (2, 3), (2, 4), (5, 1), (5, 2)] {
            let item = pledge(goods, step, life);
            assert_eq!(haircut(3, item), haircut(2, item), "{item:?}");
            let lent = |edition| raise(edition, goods, step, life);
            assert_eq!(lent(3), lent(2), "{item:?}");
        }
    }
    assert_eq!(haircut(3, CASH), 0);
    let currency = 840;
    assert_eq!(haircut(3, Collateral { currency, ..CASH }), 80);
}

fn party(edition: u64, class: u64, step: u64) -> Terms {
    Terms {
        amount: 100,
        class,
        step,
        ..terms(edition)
    }
}

fn provider(class: u64, step: u64) -> Guarantee {
    Guarantee {
        class,
        step,
        ..GUARANTEE
    }
}

/// From step 1 to 6: sovereign, bank, class 3.
const RATED: [[u64; 6]; 3] = [
    [0, 20, 50, 100, 100, 150],
    [20, 30, 50, 100, 100, 150],
    [20, 50, 75, 100, 150, 150],
];

#[test]
fn weights() {
    for (class, weights) in (1..).zip(RATED) {
        for (step, weight) in (1..).zip(weights) {
            let report = reported(party(3, class, step), &[], &[]);
            assert_eq!(report.weighted_amount, weight, "{class} {step}");
            let provided = reported(party(3, 3, 6), &[], &[provider(class, step)]);
            assert_eq!(provided.weighted_amount, weight, "{class} {step}");
        }
    }
}

/// A ground 29 that each changed weight takes away or brings, and its order.
#[test]
fn ground_29_and_order() {
    let outcomes = |class, step, item: Guarantee| {
        let of = |edition| reported(party(edition, class, step), &[], &[item]);
        [1, 2, 3].map(|edition| of(edition).guarantees[0].outcome)
    };
    let (valued, left_out) = (whole(200_000), left_out(29, 200_000));
    let gone = [left_out, left_out, valued];
    assert_eq!(outcomes(3, 2, provider(2, 2)), gone);
    assert_eq!(outcomes(1, 4, provider(3, 3)), gone);
    let brought = [valued, valued, left_out];
    assert_eq!(outcomes(3, 6, provider(2, 0)), brought);
    let of = |amount, item| Guarantee { amount, ..item };
    let both = [of(60, provider(2, 3)), of(60, provider(2, 2))];
    let portions = |edition| {
        let report = reported(party(edition, 3, 6), &[], &both);
        [0, 1].map(|place| report.guarantees[place].portion)
    };
    assert_eq!([2, 3].map(portions), [[60, 40], [40, 60]]);
}

/// The deal that the examples work out by hand, in a book.
#[test]
fn book() {
    let loan = Terms {
        step: 3,
        ..terms(3)
    };
    let of = |amount, item| Collateral { amount, ..item };
    let lines = [
        terms_line(&loan),
        collateral_line(&of(400_000, pledge(4, 2, 720))),
        collateral_line(&of(100_000, pledge(9, 0, 0))),
        guarantee_line(3, &provider(2, 2)),
    ];
    let mut results = [0; 4];
    assert_eq!(answer_book(&headed(3, &lines), &mut results), Ok(1));
    assert_eq!(results, [1, 0, 536_000, 312_000]);
    assert_eq!(answer_book(&headed(2, &lines), &mut results), Ok(1));
    assert_eq!(results, [1, 0, 539_000, 439_000]);
}
