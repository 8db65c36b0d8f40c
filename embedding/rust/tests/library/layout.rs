//! The layout of numbers has a number, and lists of another one are refused.

use crate::sample::{CASH, GUARANTEE, LOAN};
use hadlephoga::{
    add_collateral_numbers, add_guarantee_numbers, add_swap_numbers, layout, open_numbers,
    report_numbers, Collateral, Guarantee, HeldGuarantee, Position, Record, SetTerms, Swap, Terms,
    COVER_WIDTH, LAYOUT, OUTCOME_WIDTH, POSITIONS, RECORD_LENGTH, REPORT_LENGTH,
};

/// Numbers of terms, of a guarantee and of a record in layouts 1 and 2.
const FIRST: [usize; 3] = [10, 9, 332];
const SECOND: [usize; 3] = [12, 10, 350];
/// Numbers of a record and of a report in layout 3.
const THIRD: [usize; 2] = [366, 83];

#[test]
fn of_the_library() {
    assert_eq!(layout(), LAYOUT);
    assert_eq!(LAYOUT, 4);
    assert_eq!(Terms::LENGTH, 12);
    assert_eq!(Collateral::LENGTH, 11);
    assert_eq!(Guarantee::LENGTH, 10);
    assert_eq!(Swap::LENGTH, 11);
    assert_eq!(HeldGuarantee::LENGTH, 11);
    assert_eq!([OUTCOME_WIDTH, COVER_WIDTH], [6, 7]);
    assert_eq!([RECORD_LENGTH, REPORT_LENGTH], [366, 211]);
    assert_eq!([SetTerms::LENGTH, Position::LENGTH, POSITIONS], [6, 7, 32]);
}

/// A program that was built for layout 1 gets no answer but a refusal where it
/// passes what has changed.
#[test]
fn lists_of_the_first_layout_are_refused() {
    let [terms, guarantee, length] = FIRST;
    let mut record = [0; RECORD_LENGTH];
    assert_eq!(open_numbers(&[1; 12][..terms], &mut record), 11);
    assert_eq!(open_numbers(&[1; 12][..terms], &mut record[..length]), 13);
    let mut record = Record::new(LOAN, &[], &[]).to_numbers();
    let item = GUARANTEE.to_numbers();
    assert_eq!(add_guarantee_numbers(&mut record, &item[..guarantee]), 11);
    records_are_refused(length);
}

/// Terms and a guarantee are sent as in layout 2, so that its programs are refused
/// by their records.
#[test]
fn records_of_the_second_layout_are_refused() {
    let [terms, guarantee, length] = SECOND;
    assert_eq!([terms, guarantee], [Terms::LENGTH, Guarantee::LENGTH]);
    let mut record = [0; RECORD_LENGTH];
    let opened = open_numbers(&LOAN.to_numbers(), &mut record[..length]);
    assert_eq!(opened, 13);
    records_are_refused(length);
}

/// What is sent and what is held are as in layout 3, so that its programs are refused
/// where they lend a report, which is untouched.
#[test]
fn reports_of_the_third_layout_are_refused() {
    let [length, report] = THIRD;
    let mut record = vec![1; length];
    assert_eq!(open_numbers(&LOAN.to_numbers(), &mut record), 0);
    assert_eq!(add_collateral_numbers(&mut record, &CASH.to_numbers()), 0);
    let guarantee = GUARANTEE.to_numbers();
    assert_eq!(add_guarantee_numbers(&mut record, &guarantee), 0);
    let swap = [&guarantee[..], &[1]].concat();
    assert_eq!(add_swap_numbers(&mut record, &swap), 0);
    let mut lent = vec![7; report];
    assert_eq!(report_numbers(&record, &mut lent), 13);
    assert_eq!(report_numbers(&[], &mut lent), 13);
    assert_eq!(lent, [7; 83]);
    assert_eq!(report_numbers(&record, &mut [0; REPORT_LENGTH]), 0);
}

fn records_are_refused(length: usize) {
    let mut record = Record::new(LOAN, &[], &[]).to_numbers();
    let earlier = &mut record[..length];
    let before = earlier.to_vec();
    assert_eq!(add_collateral_numbers(earlier, &CASH.to_numbers()), 40);
    assert_eq!(add_guarantee_numbers(earlier, &GUARANTEE.to_numbers()), 40);
    assert_eq!(add_swap_numbers(earlier, &[1; Swap::LENGTH]), 40);
    assert_eq!(report_numbers(earlier, &mut [0; REPORT_LENGTH]), 40);
    assert_eq!(earlier, before);
}
