//! Each ground on an item of its own, and the words of refusals and grounds. All
//! other conditions are met, so that two that are exchanged show.

use crate::sample::{held, left_out, valued, whole, CASH, GUARANTEE, LOAN};
use crate::sums::reported;
use hadlephoga::{Collateral, Ground, Guarantee, Outcome, Record, Refusal};

/// Senior paper of a bank, listed; valued.
const PAPER: Collateral = Collateral {
    goods: 4,
    step: 0,
    issue_life: 360,
    listed: 1,
    ..CASH
};

fn of_collateral(item: Collateral) -> Outcome {
    reported(&Record::new(LOAN, &[item], &[])).collateral[0]
}

fn of_guarantee(item: Guarantee) -> Outcome {
    let report = reported(&Record::new(LOAN, &[], &held(&[item])));
    report.guarantees[0].outcome
}

#[test]
fn collateral() {
    // 20000 at n 20 is 28285.
    assert_eq!(of_collateral(PAPER), valued(971_715, [28_285, 0, 0]));
    let mut items = [21, 22, 23, 24, 25, 26].map(|ground| (ground, PAPER));
    items[0].1.lawful = 0;
    items[1].1.unrelated = 0;
    items[2].1.unreflected = 0;
    items[3].1.listed = 0;
    (items[4].1.residual_term, items[4].1.original_term) = (359, 359);
    items[5].1.residual_term = 90;
    for (ground, item) in items {
        assert_eq!(of_collateral(item), left_out(ground, 1_000_000), "{item:?}");
    }
}

#[test]
fn guarantees() {
    assert_eq!(of_guarantee(GUARANTEE), whole(200_000));
    let mut items = [21, 27, 23, 28, 25, 26, 29].map(|ground| (ground, GUARANTEE));
    items[0].1.lawful = 0;
    items[1].1.direct = 0;
    items[2].1.unreflected = 0;
    (items[3].1.class, items[3].1.step) = (3, 0);
    (items[4].1.residual_term, items[4].1.original_term) = (359, 359);
    items[5].1.residual_term = 90;
    // A corporate at step 3 weighs as much as the unrated counterparty.
    (items[6].1.class, items[6].1.step) = (3, 3);
    for (ground, item) in items {
        assert_eq!(of_guarantee(item), left_out(ground, 200_000), "{item:?}");
    }
}

#[test]
fn words_of_grounds() {
    for (ground, words) in [
        (20, "unknown ground"),
        (21, "not lawful"),
        (22, "related to the counterparty"),
        (23, "already in the rating used"),
        (24, "not eligible by type and step"),
        (25, "mismatch with original term under 360 days"),
        (26, "mismatch with residual term of 90 days or less"),
        (27, "not direct"),
        (28, "other entity that is unrated"),
        (29, "provider's weight not below the counterparty's"),
        (30, "unknown ground"),
    ] {
        let due = format!("ground {ground}: {words}");
        assert_eq!(Ground(ground).to_string(), due);
    }
}

#[test]
fn words_of_refusals() {
    for (refusal, words) in [
        (0, "unknown refusal"),
        (1, "amount over the limit"),
        (2, "unknown edition, table, class, kind, side or type"),
        (
            3,
            "step or sovereign's step above 6, or not 0 where 0 is due",
        ),
        (4, "currency outside 1 to 999"),
        (
            5,
            "interval, term, issue life or security number outside its range",
        ),
        (6, "list is full, or more than 32 positions"),
        (7, "residual term above the original one"),
        (8, "condition neither 0 nor 1"),
        (9, "first line is no header"),
        (10, "book longer than 65,536 bytes"),
        (11, "malformed line or list of numbers"),
        (12, "second line opens no deal"),
        (13, "list too short"),
        (14, "unknown refusal"),
        (15, "entries for one security disagree"),
        (16, "received goods not eligible as collateral"),
        (17, "amounts of all positions over the limit"),
        (18, "unknown refusal"),
        (19, "unknown refusal"),
        (20, "buffer too short for the repaired book"),
        (21, "unknown refusal"),
        (40, "record not accepted"),
        (41, "list too short for the altered lines"),
        (42, "unknown refusal"),
    ] {
        let due = format!("refusal {refusal}: {words}");
        assert_eq!(Refusal(refusal).to_string(), due);
    }
}
