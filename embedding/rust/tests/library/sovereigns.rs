//! The country's weight: the floor of editions 2 and 3, and what is refused of
//! editions and sovereign's steps. Weights are those of the papers' tables.

use crate::lines::{guarantee_line, headed, terms_line};
use crate::sample::{held, left_out, whole, CASH, GUARANTEE, LOAN};
use crate::sums;
use hadlephoga::{
    add_collateral, add_guarantee, answer_book, open, report, Guarantee, Outcome, Record, Refusal,
    Report, Terms,
};

const STEPS: std::ops::RangeInclusive<u64> = 0..=6;
/// Of an unrated party, by its sovereign's step from 0 to 6.
const BANK: [u64; 7] = [100, 50, 50, 50, 100, 100, 150];
const CORPORATE: [u64; 7] = [100, 100, 100, 100, 100, 100, 150];
/// Of rated parties from step 1 to 6: bank, corporate or other entity.
const RATED: [[u64; 6]; 2] = [[20, 50, 50, 100, 100, 150], [20, 50, 100, 100, 150, 150]];
const UNKNOWN: [u64; 8] = [0, 4, 5, 256, 257, 259, (1 << 32) + 3, u64::MAX];

fn reported(terms: Terms, guarantees: &[Guarantee]) -> Report {
    sums::reported(&Record::new(terms, &[], &held(guarantees)))
}

/// A loan of 100 to a party, whose weight is then the weighted amount.
fn loan(edition: u64, class: u64, step: u64, sovereign_step: u64) -> Terms {
    Terms {
        amount: 100,
        class,
        step,
        sovereign_step,
        edition,
        ..LOAN
    }
}

fn weighs(edition: u64, class: u64, step: u64, sovereign_step: u64) -> u64 {
    reported(loan(edition, class, step, sovereign_step), &[]).weighted_amount
}

fn guarantee(class: u64, step: u64, sovereign_step: u64) -> Guarantee {
    Guarantee {
        class,
        step,
        sovereign_step,
        ..GUARANTEE
    }
}

/// What the whole guarantee of a party makes a loan weigh that weighs 150.
fn provides(edition: u64, class: u64, step: u64, sovereign_step: u64) -> u64 {
    let item = guarantee(class, step, sovereign_step);
    reported(loan(edition, 3, 6, 0), &[item]).weighted_amount
}

#[test]
fn unrated_parties() {
    for step in STEPS {
        let due = [BANK, CORPORATE].map(|weights| weights[step as usize]);
        assert_eq!([2, 3].map(|class| weighs(2, class, 0, step)), due);
        assert_eq!(provides(2, 2, 0, step), due[0]);
        assert_eq!([2, 3].map(|class| weighs(1, class, 0, step)), [50, 100]);
        assert_eq!(provides(1, 2, 0, step), 50);
        // Under edition 3 an unrated bank weighs no less than any sovereign.
        assert_eq!([2, 3].map(|class| weighs(3, class, 0, step)), [150, due[1]]);
        assert_eq!(provides(3, 2, 0, step), 150);
    }
}

#[test]
fn rated_parties_have_no_floor() {
    for (class, weights) in [2, 3].into_iter().zip(RATED) {
        for (step, weight) in (1..).zip(weights) {
            for sovereign in STEPS {
                for edition in [1, 2] {
                    assert_eq!(weighs(edition, class, step, sovereign), weight);
                    assert_eq!(provides(edition, class, step, sovereign), weight);
                }
            }
        }
    }
    for edition in [1, 2, 3] {
        assert_eq!(weighs(edition, 1, 0, 0), 100);
        assert_eq!(weighs(edition, 4, 0, 0), 75);
    }
}

/// Ground 28 stands whatever the sovereign's step.
#[test]
fn unrated_other_entities() {
    for step in STEPS {
        for edition in [1, 2, 3] {
            let report = reported(loan(edition, 3, 6, 0), &[guarantee(3, 0, step)]);
            assert_eq!(report.guarantees[0].outcome, left_out(28, 200_000));
        }
    }
}

/// A provider's floor makes ground 29, a counterparty's unmakes it.
#[test]
fn ground_29() {
    let outcome = |terms, item| -> Outcome { reported(terms, &[item]).guarantees[0].outcome };
    let left_out = left_out(29, 200_000);
    let valued = whole(200_000);
    for step in STEPS {
        let bank = guarantee(2, 0, step);
        let weight = BANK[step as usize];
        let due = if weight < 100 { valued } else { left_out };
        assert_eq!(outcome(loan(2, 3, 3, 0), bank), due);
        assert_eq!(outcome(loan(1, 3, 3, 0), bank), valued);
        // At step 2 a bank weighs 50.
        let due = if weight > 50 { valued } else { left_out };
        assert_eq!(outcome(loan(2, 2, 0, step), guarantee(2, 2, 0)), due);
        assert_eq!(outcome(loan(1, 2, 0, step), guarantee(2, 2, 0)), left_out);
    }
}

/// The floor decides the order too: the first guarantee weighs 50 under edition
/// 1, as the second does, and 100 under edition 2; the third weighs 20.
#[test]
fn cover_in_rising_order_of_weight() {
    let portions = |edition| {
        let of = |amount, item| Guarantee { amount, ..item };
        let guarantees = [
            of(60, guarantee(2, 0, 4)),
            of(60, guarantee(3, 2, 0)),
            of(10, guarantee(2, 1, 6)),
        ];
        let report = reported(loan(edition, 3, 6, 0), &guarantees);
        let portions = [0, 1, 2].map(|place| report.guarantees[place].portion);
        (portions, report.weighted_amount)
    };
    // 10 x 20 and 90 x 50.
    assert_eq!(portions(1), ([60, 30, 10], 47));
    // 10 x 20, 60 x 50 and 30 x 100.
    assert_eq!(portions(2), ([30, 60, 10], 62));
}

#[test]
fn wrong_steps_are_refused() {
    let mut record = Record::new(loan(2, 2, 0, 0), &[], &[]);
    let before = record.clone();
    for edition in [1, 2, 3] {
        for wrong in [7, 8, 256, 257, u64::MAX] {
            for class in 1..=4 {
                let terms = loan(edition, class, 0, wrong);
                assert_eq!(open(&terms), Err(Refusal(3)), "{terms:?}");
            }
            record.terms.edition = edition;
            for class in 1..=3 {
                let item = guarantee(class, 1, wrong);
                assert_eq!(add_guarantee(&mut record, &item), Err(Refusal(3)));
            }
        }
        for step in 1..=6 {
            for class in [1, 4] {
                let terms = loan(edition, class, 0, step);
                assert_eq!(open(&terms), Err(Refusal(3)), "{terms:?}");
            }
            let item = guarantee(1, 1, step);
            assert_eq!(add_guarantee(&mut record, &item), Err(Refusal(3)));
        }
    }
    record.terms.edition = 2;
    assert_eq!(record, before);
}

/// Unknown editions are 2 in opening, behind 1 and before 3, and 40 in a record.
#[test]
fn unknown_editions_are_refused() {
    for edition in UNKNOWN {
        let terms = Terms { edition, ..LOAN };
        assert_eq!(open(&terms), Err(Refusal(2)), "{edition}");
        assert_eq!(open(&Terms { step: 7, ..terms }), Err(Refusal(2)));
        let amount = 1_000_000_000_001;
        assert_eq!(open(&Terms { amount, ..terms }), Err(Refusal(1)));
        let before = Record::new(terms, &[CASH], &held(&[GUARANTEE]));
        let mut record = before.clone();
        assert_eq!(report(&record), Err(Refusal(40)));
        assert_eq!(add_collateral(&mut record, &CASH), Err(Refusal(40)));
        assert_eq!(add_guarantee(&mut record, &GUARANTEE), Err(Refusal(40)));
        assert_eq!(record, before);
    }
}

/// A record may be changed after opening: what opening or adding would refuse is
/// 40, anything else is reported as if it had been opened so.
#[test]
fn changed_after_opening() {
    let mut record = open(&loan(1, 2, 0, 6)).expect("accepted terms");
    add_guarantee(&mut record, &guarantee(2, 0, 0)).expect("a free place");
    let weighted = |record: &Record| report(record).map(|report| report.weighted_amount);
    assert_eq!(weighted(&record), Ok(50));
    record.terms.edition = 2;
    assert_eq!(weighted(&record), Ok(100));
    record.guarantees[0].sovereign_step = 1;
    assert_eq!(weighted(&record), Ok(50));
    record.terms.sovereign_step = 1;
    assert_eq!(weighted(&record), Ok(50));
    record.guarantees[0].sovereign_step = 7;
    assert_eq!(weighted(&record), Err(Refusal(40)));
    // Past the count it is not looked at.
    record.guarantee_count = 0;
    assert_eq!(weighted(&record), Ok(50));
    record.terms.class = 4;
    assert_eq!(weighted(&record), Err(Refusal(40)));
}

fn answered(book: &[u8]) -> [u64; 4] {
    let mut results = [0; 4];
    assert_eq!(answer_book(book, &mut results), Ok(1));
    results
}

/// Lines without the sovereign's step are malformed under headers 2 and 3, lines
/// with it under header 1.
#[test]
fn books() {
    for step in STEPS {
        let item = guarantee(2, 0, step);
        for (edition, other) in [(1, 2), (1, 3), (2, 1), (3, 1)] {
            let terms = loan(edition, 3, 6, step);
            let others = Terms {
                edition: other,
                ..terms
            };
            let book = |terms, item| headed(edition, &[terms, item]);
            let own = (terms_line(&terms), guarantee_line(edition, &item));
            let due = provides(edition, 2, 0, step);
            assert_eq!(
                answered(&book(own.0.clone(), own.1.clone())),
                [1, 0, 100, due]
            );
            let others = (terms_line(&others), guarantee_line(other, &item));
            assert_eq!(answered(&book(others.0, own.1)), [1, 11, 2, 0]);
            assert_eq!(answered(&book(own.0, others.1)), [1, 11, 3, 0]);
        }
    }
    for edition in [2, 3] {
        let wrong = headed(edition, &[terms_line(&loan(edition, 4, 0, 1))]);
        assert_eq!(answered(&wrong), [1, 3, 2, 0]);
        let wrong = [
            terms_line(&loan(edition, 3, 0, 0)),
            guarantee_line(edition, &guarantee(1, 1, 1)),
        ];
        assert_eq!(answered(&headed(edition, &wrong)), [1, 3, 3, 0]);
    }
}
