//! Records of any numbers, and record and report lists of any length.

use crate::sample::{held, left_out, valued, CASH, GUARANTEE, LOAN};
use crate::sums::reported;
use hadlephoga::{
    report, report_numbers, Collateral, Cover, Guarantee, HeldGuarantee, Record, Refusal, Report,
    Swap, Terms, COVER_WIDTH, ITEMS, OUTCOME_WIDTH, RECORD_LENGTH, REPORT_LENGTH,
};

const MARK: u64 = 0xA5A5_A5A5_A5A5_A5A5;

fn record() -> Record {
    Record::new(LOAN, &[CASH], &held(&[GUARANTEE]))
}

fn is_refused(record: &Record) -> bool {
    report(record) == Err(Refusal(40))
}

#[test]
fn layout_of_terms_and_counts() {
    assert_eq!(RECORD_LENGTH, 366);
    assert_eq!(REPORT_LENGTH, 211);
    let numbers = std::array::from_fn(|place| place as u64 + 1);
    let record = Record::from_numbers(&numbers);
    let terms = Terms {
        amount: 1,
        class: 2,
        step: 3,
        sovereign_step: 4,
        currency: 5,
        kind: 6,
        interval: 7,
        residual_term: 8,
        lent_type: 9,
        lent_step: 10,
        lent_issue_life: 11,
        edition: 12,
    };
    assert_eq!(record.terms, terms);
    assert_eq!(record.collateral_count, 13);
    assert_eq!(record.guarantee_count, 190);
    assert_eq!(record.to_numbers(), numbers);
}

#[test]
fn layout_of_items() {
    let numbers = std::array::from_fn(|place| place as u64 + 1);
    let record = Record::from_numbers(&numbers);
    let item = |first| Collateral {
        amount: first,
        goods: first + 1,
        step: first + 2,
        issue_life: first + 3,
        currency: first + 4,
        residual_term: first + 5,
        original_term: first + 6,
        lawful: first + 7,
        unrelated: first + 8,
        unreflected: first + 9,
        listed: first + 10,
    };
    assert_eq!(record.collateral[0], item(14));
    assert_eq!(record.collateral[15], item(179));
    let item = |first| HeldGuarantee {
        amount: first,
        class: first + 1,
        step: first + 2,
        sovereign_step: first + 3,
        currency: first + 4,
        residual_term: first + 5,
        original_term: first + 6,
        lawful: first + 7,
        direct: first + 8,
        unreflected: first + 9,
        instrument: first + 10,
    };
    assert_eq!(record.guarantees[0], item(191));
    assert_eq!(record.guarantees[15], item(356));
}

/// A guarantee and a swap have their ten numbers in the same places.
#[test]
fn layout_of_sent_items() {
    let guarantee = Guarantee {
        amount: 1,
        class: 2,
        step: 3,
        sovereign_step: 4,
        currency: 5,
        residual_term: 6,
        original_term: 7,
        lawful: 8,
        direct: 9,
        unreflected: 10,
    };
    let swap = Swap {
        amount: 1,
        class: 2,
        step: 3,
        sovereign_step: 4,
        currency: 5,
        residual_term: 6,
        original_term: 7,
        lawful: 8,
        direct: 9,
        unreflected: 10,
        restructuring: 11,
    };
    let sent = [1, 2, 3, 4, 5, 6, 7, 8, 9, 10, 11];
    assert_eq!(guarantee.to_numbers(), sent[..10]);
    assert_eq!(swap.to_numbers(), sent);
    assert_eq!(Swap::from_numbers(&sent), swap);
}

/// Where the numbers of an item begin in a report, counted from 1.
fn collateral_place(item: usize) -> usize {
    2 + item * OUTCOME_WIDTH
}

fn guarantee_place(item: usize) -> usize {
    98 + item * COVER_WIDTH
}

/// Every number stands for its place. With a ground an item has nothing but that and
/// its whole amount, without one its value and losses.
#[test]
fn layout_of_report() {
    let numbers: [u64; REPORT_LENGTH] = std::array::from_fn(|place| place as u64 + 1);
    let report = Report::from_numbers(&numbers);
    assert_eq!(report.exposure, 1);
    assert_eq!([report.rest, report.weighted_amount], [210, 211]);
    let mut without = numbers;
    for item in 0..ITEMS {
        without[collateral_place(item)] = 0;
        without[guarantee_place(item)] = 0;
    }
    let without = Report::from_numbers(&without);
    assert_eq!(without.exposure, 1);
    assert_eq!([without.rest, without.weighted_amount], [210, 211]);
    let given = |first| left_out(first + 1, first + 5);
    let plain = |first| valued(first, [first + 2, first + 3, first + 4]);
    for item in 0..ITEMS {
        let first = collateral_place(item) as u64;
        assert_eq!(report.collateral[item], given(first));
        assert_eq!(without.collateral[item], plain(first));
        let first = guarantee_place(item) as u64;
        let portion = first + 6;
        let outcome = given(first);
        assert_eq!(report.guarantees[item], Cover { outcome, portion });
        let outcome = plain(first);
        assert_eq!(without.guarantees[item], Cover { outcome, portion });
    }
}

#[test]
fn record_lists_of_other_lengths() {
    let numbers = record().to_numbers();
    let mut longer = numbers.to_vec();
    longer.push(0);
    for list in [&[] as &[u64], &numbers[..RECORD_LENGTH - 1], &longer] {
        let mut report = [MARK; REPORT_LENGTH + 7];
        assert_eq!(report_numbers(list, &mut report), 40);
        assert_eq!(report[..REPORT_LENGTH], [0; REPORT_LENGTH]);
        assert_eq!(report[REPORT_LENGTH..], [MARK; 7]);
        // 13 comes before 40.
        let mut report = [MARK; REPORT_LENGTH];
        assert_eq!(report_numbers(list, &mut report[..210]), 13);
        assert_eq!(report, [MARK; REPORT_LENGTH]);
    }
}

#[test]
fn report_lists_of_every_length() {
    let numbers = record().to_numbers();
    for length in 0..REPORT_LENGTH {
        let mut report = vec![MARK; length];
        assert_eq!(report_numbers(&numbers, &mut report), 13);
        assert!(report.iter().all(|number| *number == MARK));
    }
    let mut exact = [MARK; REPORT_LENGTH];
    assert_eq!(report_numbers(&numbers, &mut exact), 0);
    for longer in 1..8 {
        let mut list = vec![MARK; REPORT_LENGTH + longer];
        assert_eq!(report_numbers(&numbers, &mut list), 0);
        assert_eq!(list[..REPORT_LENGTH], exact);
        assert_eq!(list[REPORT_LENGTH..], vec![MARK; longer]);
    }
    assert_eq!(Ok(Report::from_numbers(&exact)), report(&record()));
}

#[test]
fn counts() {
    for count in [17, 18, 20, 255, 256, 1 << 32, u64::MAX - 1, u64::MAX] {
        let mut record = record();
        record.collateral = [CASH; ITEMS];
        record.guarantees = [GUARANTEE.into(); ITEMS];
        record.collateral_count = count;
        assert!(is_refused(&record));
        record.collateral_count = 16;
        assert!(report(&record).is_ok());
        record.guarantee_count = count;
        assert!(is_refused(&record));
    }
    assert!(is_refused(&Record::new(LOAN, &[CASH; 17], &[])));
    let guarantees = held(&[GUARANTEE; 17]);
    assert!(is_refused(&Record::new(LOAN, &[], &guarantees)));
    assert!(report(&Record::new(LOAN, &[CASH; 16], &guarantees[..16])).is_ok());
}

#[test]
fn largest_numbers_everywhere() {
    let mut report = [MARK; REPORT_LENGTH];
    assert_eq!(report_numbers(&[u64::MAX; RECORD_LENGTH], &mut report), 40);
    assert_eq!(report, [0; REPORT_LENGTH]);
    assert_eq!(report_numbers(&[0; RECORD_LENGTH], &mut report), 40);
}

#[test]
fn largest_number_in_each_field() {
    let full = Record::new(LOAN, &[CASH; ITEMS], &held(&[GUARANTEE; ITEMS])).to_numbers();
    for place in 0..RECORD_LENGTH {
        let mut numbers = full;
        numbers[place] = u64::MAX;
        let mut report = [MARK; REPORT_LENGTH];
        assert_eq!(report_numbers(&numbers, &mut report), 40, "place {place}");
        assert_eq!(report, [0; REPORT_LENGTH]);
    }
}

#[test]
fn places_past_a_count_do_not_matter() {
    let clean = record();
    let mut record = record();
    record.collateral[1..].fill(Collateral::from_numbers(&[u64::MAX; Collateral::LENGTH]));
    record.guarantees[1..].fill(HeldGuarantee::from_numbers(
        &[u64::MAX; HeldGuarantee::LENGTH],
    ));
    // Their own numbers in the report are 0.
    assert_eq!(reported(&record), reported(&clean));
}

const LIMIT: u64 = 1_000_000_000_000;

/// The loan with one of its numbers changed; places as in the layout.
fn with_term(place: usize, number: u64) -> Terms {
    let mut numbers = LOAN.to_numbers();
    numbers[place] = number;
    Terms::from_numbers(&numbers)
}

#[test]
fn terms_just_outside_their_ranges() {
    let largest = Record::new(with_term(0, LIMIT), &[], &[]);
    assert!(report(&largest).is_ok());
    for (place, number) in [
        (0, LIMIT + 1),
        (1, 5),
        (1, 0),
        (2, 7),
        (3, 7),
        (4, 0),
        (4, 1000),
        (5, 4),
        (6, 0),
        (6, 251),
        (7, 100_001),
        (8, 10),
        (9, 1),
        (10, 1),
        (11, 0),
        (11, 4),
    ] {
        let terms = with_term(place, number);
        assert!(is_refused(&Record::new(terms, &[], &[])), "{terms:?}");
    }
    for (step, sovereign_step) in [(1, 0), (0, 1)] {
        let retail = Terms {
            class: 4,
            step,
            sovereign_step,
            ..LOAN
        };
        assert!(is_refused(&Record::new(retail, &[], &[])), "{retail:?}");
    }
}

#[test]
fn items_just_outside_their_ranges() {
    for (place, number) in [(5, 1801), (1, 2), (10, 2)] {
        let mut item = CASH.to_numbers();
        item[place] = number;
        let item = Collateral::from_numbers(&item);
        assert!(is_refused(&Record::new(LOAN, &[item], &[])), "{item:?}");
    }
    for (place, number) in [(1, 4), (3, 1), (6, 1799), (8, 2), (10, 3)] {
        let mut item = HeldGuarantee::from(GUARANTEE).to_numbers();
        item[place] = number;
        let item = HeldGuarantee::from_numbers(&item);
        assert!(is_refused(&Record::new(LOAN, &[], &[item])), "{item:?}");
    }
}
