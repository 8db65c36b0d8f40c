//! Records built by opening and adding: every refusal by its number, and what a
//! refused call leaves alone.

use crate::sample::{held, CASH, GUARANTEE, LOAN};
use crate::sums::reported;
use hadlephoga::{
    add_collateral, add_collateral_numbers, add_guarantee, add_guarantee_numbers, add_swap, open,
    open_numbers, report, Collateral, Guarantee, HeldGuarantee, Record, Refusal, Swap, Terms,
    ITEMS, RECORD_LENGTH,
};

const MARK: u64 = 0xA5A5_A5A5_A5A5_A5A5;
const LIMIT: u64 = 1_000_000_000_000;

/// Terms that opening refuses, one for each number.
fn refused_terms() -> [(u64, Terms); 5] {
    [
        (
            1,
            Terms {
                amount: LIMIT + 1,
                ..LOAN
            },
        ),
        (2, Terms { kind: 4, ..LOAN }),
        (
            3,
            Terms {
                lent_step: 1,
                ..LOAN
            },
        ),
        (
            4,
            Terms {
                currency: 0,
                ..LOAN
            },
        ),
        (
            5,
            Terms {
                interval: 251,
                ..LOAN
            },
        ),
    ]
}

/// Collateral that adding refuses, one for each number but 6 and 40.
fn refused_collateral() -> [(u64, Collateral); 7] {
    let mut items = [1, 2, 3, 4, 5, 7, 8].map(|number| (number, CASH));
    items[0].1.amount = LIMIT + 1;
    items[1].1.goods = 10;
    items[2].1.step = 1;
    items[3].1.currency = 1000;
    items[4].1.issue_life = 1;
    items[5].1.residual_term = CASH.original_term + 1;
    items[6].1.listed = 2;
    items
}

/// Guarantees that adding refuses, one for each number but 6 and 40.
fn refused_guarantees() -> [(u64, Guarantee); 7] {
    let mut items = [1, 2, 3, 4, 5, 7, 8].map(|number| (number, GUARANTEE));
    items[0].1.amount = LIMIT + 1;
    items[1].1.class = 4;
    items[2].1.step = 7;
    items[3].1.currency = 1000;
    items[4].1.original_term = 100_001;
    items[5].1.residual_term = GUARANTEE.original_term + 1;
    items[6].1.direct = 2;
    items
}

/// Both lists are filled one by one, each up to its sixteenth place.
#[test]
fn full_lists() {
    let mut record = open(&LOAN).expect("accepted terms");
    assert_eq!(record, Record::new(LOAN, &[], &[]));
    for count in 1..=ITEMS {
        add_collateral(&mut record, &CASH).expect("a free place");
        assert_eq!(record, Record::new(LOAN, &[CASH; ITEMS][..count], &[]));
    }
    for count in 1..=ITEMS {
        add_guarantee(&mut record, &GUARANTEE).expect("a free place");
        let guarantees = held(&[GUARANTEE; ITEMS][..count]);
        assert_eq!(record, Record::new(LOAN, &[CASH; ITEMS], &guarantees));
    }
    let full = record.clone();
    // 6 comes before the item's own refusals.
    let (_, item) = refused_collateral()[0];
    assert_eq!(add_collateral(&mut record, &item), Err(Refusal(6)));
    let (_, item) = refused_guarantees()[0];
    assert_eq!(add_guarantee(&mut record, &item), Err(Refusal(6)));
    assert_eq!(record, full);
    assert_eq!(reported(&record).exposure, 0);
}

/// Zeros stand beside a refusal, which no other call accepts.
#[test]
fn opening_refused() {
    for (number, terms) in refused_terms() {
        assert_eq!(open(&terms), Err(Refusal(number)), "{terms:?}");
        let mut record = [MARK; RECORD_LENGTH + 3];
        assert_eq!(open_numbers(&terms.to_numbers(), &mut record), number);
        assert_eq!(record[..RECORD_LENGTH], [0; RECORD_LENGTH]);
        assert_eq!(record[RECORD_LENGTH..], [MARK; 3]);
    }
    let mut nothing = Record::default();
    assert_eq!(add_collateral(&mut nothing, &CASH), Err(Refusal(40)));
    assert_eq!(add_guarantee(&mut nothing, &GUARANTEE), Err(Refusal(40)));
    assert_eq!(add_swap(&mut nothing, &Swap::default()), Err(Refusal(40)));
    assert_eq!(report(&nothing), Err(Refusal(40)));
    assert_eq!(nothing, Record::default());
}

#[test]
fn opening_into_lists_of_other_lengths() {
    let terms = LOAN.to_numbers();
    let mut longer = terms.to_vec();
    longer.push(0);
    for list in [&[] as &[u64], &terms[..Terms::LENGTH - 1], &longer] {
        let mut record = [MARK; RECORD_LENGTH + 1];
        assert_eq!(open_numbers(list, &mut record), 11);
        assert_eq!(record[..RECORD_LENGTH], [0; RECORD_LENGTH]);
        assert_eq!(record[RECORD_LENGTH], MARK);
    }
    // 13 comes before 11.
    for length in [0, 1, RECORD_LENGTH - 1] {
        let mut record = vec![MARK; length];
        assert_eq!(open_numbers(&terms, &mut record), 13);
        assert_eq!(open_numbers(&longer, &mut record), 13);
        assert!(record.iter().all(|number| *number == MARK));
    }
    let mut record = [MARK; RECORD_LENGTH + 1];
    assert_eq!(open_numbers(&terms, &mut record), 0);
    let opened = open(&LOAN).expect("accepted terms").to_numbers();
    assert_eq!(record[..RECORD_LENGTH], opened);
    assert_eq!(record[RECORD_LENGTH], MARK);
}

#[test]
fn adding_refused() {
    let before = Record::new(LOAN, &[CASH], &held(&[GUARANTEE]));
    let mut record = before.clone();
    for (number, item) in refused_collateral() {
        let refusal = add_collateral(&mut record, &item);
        assert_eq!(refusal, Err(Refusal(number)), "{item:?}");
    }
    for (number, item) in refused_guarantees() {
        let refusal = add_guarantee(&mut record, &item);
        assert_eq!(refusal, Err(Refusal(number)), "{item:?}");
    }
    assert_eq!(record, before);
}

/// A record with any field that opening or adding refuses, before the item's own.
#[test]
fn adding_to_no_accepted_record() {
    let mut records = vec![Record::new(LOAN, &[CASH; 17], &[])];
    records.extend(refused_terms().map(|(_, terms)| Record::new(terms, &[], &[])));
    records.extend(refused_collateral().map(|(_, item)| Record::new(LOAN, &[item], &[])));
    records.extend(refused_guarantees().map(|(_, item)| Record::new(LOAN, &[], &held(&[item]))));
    let (_, collateral) = refused_collateral()[0];
    let (_, guarantee) = refused_guarantees()[0];
    for before in records {
        let mut record = before.clone();
        assert_eq!(add_collateral(&mut record, &collateral), Err(Refusal(40)));
        assert_eq!(add_guarantee(&mut record, &guarantee), Err(Refusal(40)));
        assert_eq!(record, before);
    }
}

type Add = fn(&mut [u64], &[u64]) -> u64;

#[test]
fn adding_lists_of_other_lengths() {
    let record = Record::new(LOAN, &[CASH], &held(&[GUARANTEE])).to_numbers();
    let adding: [(Add, &[u64]); 2] = [
        (add_collateral_numbers, &CASH.to_numbers()),
        (add_guarantee_numbers, &GUARANTEE.to_numbers()),
    ];
    for (add, item) in adding {
        let width = item.len();
        let mut numbers = record.to_vec();
        assert_eq!(add(&mut numbers, &[]), 11);
        assert_eq!(add(&mut numbers, &item[1..]), 11);
        assert_eq!(add(&mut numbers, &vec![0; width + 1]), 11);
        assert_eq!(numbers, record);
        // A number too many, or too few; 11 comes before 40.
        numbers.push(MARK);
        assert_eq!(add(&mut numbers, item), 40);
        assert_eq!(add(&mut numbers, &item[1..]), 11);
        assert_eq!(numbers[..RECORD_LENGTH], record);
        assert_eq!(numbers[RECORD_LENGTH], MARK);
        numbers.truncate(RECORD_LENGTH - 1);
        assert_eq!(add(&mut numbers, item), 40);
        assert_eq!(add(&mut [], item), 40);
        assert_eq!(numbers, record[..RECORD_LENGTH - 1]);
    }
}

/// Only the next place and that list's count change, whatever stands past it.
#[test]
fn places_past_a_count_stay() {
    let mut before = Record::new(LOAN, &[CASH], &held(&[GUARANTEE]));
    before.collateral[1..].fill(Collateral::from_numbers(&[MARK; Collateral::LENGTH]));
    before.guarantees[1..].fill(HeldGuarantee::from_numbers(&[MARK; HeldGuarantee::LENGTH]));
    let mut record = before.clone();
    add_collateral(&mut record, &CASH).expect("a free place");
    before.collateral[1] = CASH;
    before.collateral_count = 2;
    assert_eq!(record, before);
    add_guarantee(&mut record, &GUARANTEE).expect("a free place");
    before.guarantees[1] = GUARANTEE.into();
    before.guarantee_count = 2;
    assert_eq!(record, before);
}
