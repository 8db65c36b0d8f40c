//! Calls side by side give what they give alone.

use std::thread;

use crate::netting::{self, lent, received, reply, BOND, EURO, TERMS};
use crate::sample::{held, mailed, valued, CASH, GUARANTEE, LOAN, SAMPLE, SAMPLE_RESULTS};
use hadlephoga::{answer_book, repair_book, report, Collateral, Record, Terms};

#[test]
fn side_by_side() {
    thread::scope(|scope| {
        for number in 0..8 {
            scope.spawn(move || {
                let amount = 1_000_000 + number;
                let cash = Collateral {
                    currency: 840,
                    residual_term: 900,
                    ..CASH
                };
                let guarantees = held(&[GUARANTEE; 16]);
                let record = Record::new(Terms { amount, ..LOAN }, &[cash; 16], &guarantees);
                let alone = report(&record).expect("an accepted deal");
                let lost = valued(420_092, [113_138, 466_770, 0]);
                assert_eq!(alone.collateral, [lost; 16]);
                // Lent less received is 10 x number, the haircut of 1,000,000 is 20,000.
                let payment = received(1_000_000 - 10 * number, netting::cash(EURO));
                let set = [lent(1_000_000, BOND), payment];
                let mailed = mailed(&" ".repeat(1 + number as usize), "\r\n");
                for _ in 0..500 {
                    let mut results = [number; 13];
                    assert_eq!(answer_book(SAMPLE, &mut results), Ok(3));
                    assert_eq!(results[..12], SAMPLE_RESULTS);
                    assert_eq!(results[12], number);
                    assert_eq!(report(&record).as_ref(), Ok(&alone));
                    let repaired = repair_book(&mailed).expect("a mailed book");
                    assert!(repaired.book == SAMPLE);
                    assert_eq!(repaired.altered, [1, 2, 3, 4, 5, 6]);
                    assert_eq!(reply(TERMS, &set).exposure, 20_000 + 10 * number);
                }
            });
        }
    });
}
