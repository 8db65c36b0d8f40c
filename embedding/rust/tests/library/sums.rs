//! Reports, looked at number by number before a test looks at what they mean.

use hadlephoga::{
    report, report_numbers, Record, Report, COVER_WIDTH, ITEMS, OUTCOME_WIDTH, REPORT_LENGTH,
    SWAP_WITHOUT_RESTRUCTURING,
};

const MARK: u64 = 0xA5A5_A5A5_A5A5_A5A5;
const GUARANTEE_START: usize = 1 + ITEMS * OUTCOME_WIDTH;

/// The report of an accepted deal, in which every counted item adds up and every
/// number past a count is 0.
pub fn reported(record: &Record) -> Report {
    let mut list = [MARK; REPORT_LENGTH + 1];
    assert_eq!(report_numbers(&record.to_numbers(), &mut list), 0);
    let (numbers, behind) = list.split_first_chunk().expect("the numbers of a report");
    assert_eq!(behind, [MARK]);
    let collateral = numbers[1..GUARANTEE_START].chunks(OUTCOME_WIDTH);
    for (place, item) in collateral.enumerate() {
        if (place as u64) < record.collateral_count {
            adds_up(item, record.collateral[place].amount, false);
        } else {
            assert_eq!(item, [0; OUTCOME_WIDTH], "place {place}");
        }
    }
    let guarantees = numbers[GUARANTEE_START..REPORT_LENGTH - 2].chunks(COVER_WIDTH);
    for (place, item) in guarantees.enumerate() {
        if (place as u64) < record.guarantee_count {
            let held = record.guarantees[place];
            let cut = held.instrument == SWAP_WITHOUT_RESTRUCTURING;
            adds_up(item, held.amount, cut);
            assert!(item[6] <= item[0], "portion {} of {}", item[6], item[0]);
        } else {
            assert_eq!(item, [0; COVER_WIDTH], "place {place}");
        }
    }
    let numbers = Report::from_numbers(numbers);
    assert_eq!(report(record).as_ref(), Ok(&numbers));
    numbers
}

/// Value and losses are the amount that was sent, or all of it is left out; what has
/// no cut loses nothing by one.
fn adds_up(item: &[u64], amount: u64, cut: bool) {
    let kept = item[0] + item[2] + item[3] + item[4];
    let due = if item[1] == 0 {
        [amount, 0]
    } else {
        [0, amount]
    };
    assert_eq!([kept, item[5]], due, "{item:?}");
    assert!(cut || item[4] == 0, "{item:?}");
}
