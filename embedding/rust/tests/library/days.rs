//! Days of life and cover, from both sides of their limit, in each of the seven
//! fields that hold them and in every place of both lists.

use crate::lines::{collateral_line, guarantee_line, headed, terms_line};
use crate::sample::{held, valued, whole, CASH, GUARANTEE, LOAN};
use crate::sums;
use hadlephoga::{
    add_collateral, add_collateral_numbers, add_guarantee, add_guarantee_numbers, add_swap_numbers,
    answer_book, open, open_numbers, report_numbers, Collateral, Cover, Guarantee, HeldGuarantee,
    Record, Refusal, Report, Swap, Terms, ITEMS, RECORD_LENGTH, REPORT_LENGTH,
};

const LONGEST: u64 = 100_000;
/// Of this limit, of the earlier one, and of 16 bits.
const EDGES: [u64; 8] = [
    35_999, 36_000, 36_001, 65_535, 65_536, 65_537, 99_999, LONGEST,
];
/// Above the limit; cut to 17 or to 32 bits the middle ones would be accepted.
const ABOVE: [u64; 4] = [LONGEST + 1, (1 << 17) + 1800, (1 << 32) + 1800, u64::MAX];

/// Where the fields stand in terms and in items, and these in a record.
const TERMS_DAYS: [usize; 2] = [7, 10];
const COLLATERAL_DAYS: [usize; 3] = [3, 5, 6];
const GUARANTEE_DAYS: [usize; 2] = [5, 6];
/// Numbers of an item in a record, in either list.
const ITEM_WIDTH: usize = 11;
const COLLATERAL_START: usize = Terms::LENGTH + 1;
const GUARANTEE_START: usize = COLLATERAL_START + ITEMS * Collateral::LENGTH + 1;

/// A repo that lends state stock. n is 6 + 5 - 1 = 10, so that table haircuts
/// stay as they are.
const REPO: Terms = Terms {
    kind: 1,
    interval: 6,
    lent_type: 2,
    lent_step: 1,
    lent_issue_life: 1801,
    ..LOAN
};
const STOCK: Collateral = Collateral {
    amount: 50_000,
    goods: 2,
    step: 1,
    issue_life: 1801,
    original_term: LONGEST,
    ..CASH
};
const PROMISE: Guarantee = Guarantee {
    amount: 10_000,
    original_term: LONGEST,
    ..GUARANTEE
};

/// Days above 1,800 are all alike, so this is the report of the full repo
/// whatever they are: 1,040,000 less 48,000 for each stock, which loses 4 percent, and
/// 10,000 of each guarantee at weight 0.
fn reported() -> Report {
    Report {
        exposure: 272_000,
        collateral: [valued(48_000, [2_000, 0, 0]); ITEMS],
        guarantees: [Cover {
            outcome: whole(10_000),
            portion: 10_000,
        }; ITEMS],
        rest: 112_000,
        weighted_amount: 112_000,
    }
}

/// Every place of a record that holds days.
fn places() -> Vec<usize> {
    let items = |start: usize, width: usize, days: &'static [usize]| {
        (0..ITEMS).flat_map(move |item| days.iter().map(move |at| start + item * width + at))
    };
    let collateral = items(COLLATERAL_START, Collateral::LENGTH, &COLLATERAL_DAYS);
    let guarantees = items(GUARANTEE_START, HeldGuarantee::LENGTH, &GUARANTEE_DAYS);
    let places = TERMS_DAYS.into_iter().chain(collateral).chain(guarantees);
    places.collect()
}

/// No field of the wrapper is narrower than a number of the library.
#[test]
fn every_field_has_64_bits() {
    assert_eq!(size_of::<Terms>(), Terms::LENGTH * 8);
    assert_eq!(size_of::<Collateral>(), Collateral::LENGTH * 8);
    assert_eq!(size_of::<Guarantee>(), Guarantee::LENGTH * 8);
    assert_eq!(size_of::<Swap>(), Swap::LENGTH * 8);
    assert_eq!(size_of::<HeldGuarantee>(), HeldGuarantee::LENGTH * 8);
    let largest = [u64::MAX; RECORD_LENGTH];
    assert_eq!(Record::from_numbers(&largest).to_numbers(), largest);
}

#[test]
fn longest_everywhere() {
    let terms = Terms {
        residual_term: LONGEST,
        lent_issue_life: LONGEST,
        ..REPO
    };
    let stock = Collateral {
        issue_life: LONGEST,
        residual_term: LONGEST,
        ..STOCK
    };
    let promise = Guarantee {
        residual_term: LONGEST,
        ..PROMISE
    };
    let mut record = open(&terms).expect("accepted terms");
    for _ in 0..ITEMS {
        add_collateral(&mut record, &stock).expect("a free place");
        add_guarantee(&mut record, &promise).expect("a free place");
    }
    let promises = held(&[promise; 16]);
    assert_eq!(record, Record::new(terms, &[stock; 16], &promises));
    let numbers = record.to_numbers();
    let longest = (0..RECORD_LENGTH).filter(|place| numbers[*place] == LONGEST);
    assert_eq!(longest.collect::<Vec<_>>(), places());
    assert_eq!(sums::reported(&record), reported());
}

/// In one field at a time, of a record that is full.
#[test]
fn reporting() {
    let full = Record::new(REPO, &[STOCK; ITEMS], &held(&[PROMISE; ITEMS])).to_numbers();
    assert_eq!(places().len(), 2 + ITEMS * 3 + ITEMS * 2);
    for place in places() {
        for days in EDGES {
            let mut numbers = full;
            numbers[place] = days;
            let record = Record::from_numbers(&numbers);
            assert_eq!(sums::reported(&record), reported(), "{days} in {place}");
        }
        for days in ABOVE {
            let mut numbers = full;
            numbers[place] = days;
            let mut report = [1; REPORT_LENGTH];
            assert_eq!(
                report_numbers(&numbers, &mut report),
                40,
                "{days} in place {place}"
            );
            assert_eq!(report, [0; REPORT_LENGTH]);
        }
    }
}

#[test]
fn opening() {
    for place in TERMS_DAYS {
        let mut terms = REPO.to_numbers();
        let mut record = [1; RECORD_LENGTH];
        for days in EDGES {
            terms[place] = days;
            assert_eq!(open_numbers(&terms, &mut record), 0, "{days} in {place}");
            assert_eq!(record[..Terms::LENGTH], terms);
        }
        for days in ABOVE {
            terms[place] = days;
            assert_eq!(open_numbers(&terms, &mut record), 5, "{days} in {place}");
            assert_eq!(record, [0; RECORD_LENGTH]);
        }
    }
}

/// Adds an item with each of the days in each of these fields, to lists of every
/// length; the item begins in this place of the record, where these numbers of it
/// are kept.
fn adding<const WIDTH: usize>(
    add: fn(&mut [u64], &[u64]) -> u64,
    item: [u64; WIDTH],
    kept: fn(&[u64; WIDTH]) -> [u64; ITEM_WIDTH],
    fields: &[usize],
    before: &Record,
    start: usize,
) {
    for field in fields {
        let mut item = item;
        for days in EDGES {
            let mut record = before.to_numbers();
            item[*field] = days;
            assert_eq!(add(&mut record, &item), 0, "{days} in {field}");
            let due = kept(&item);
            assert_eq!(record[start..start + due.len()], due);
        }
        for days in ABOVE {
            let mut record = before.to_numbers();
            item[*field] = days;
            assert_eq!(add(&mut record, &item), 5, "{days} in {field}");
            assert_eq!(record, before.to_numbers());
        }
    }
}

#[test]
fn adding_collateral() {
    for count in 0..ITEMS {
        let promises = held(&[PROMISE; ITEMS]);
        let before = Record::new(REPO, &[STOCK; ITEMS][..count], &promises);
        let start = COLLATERAL_START + count * Collateral::LENGTH;
        let item = STOCK.to_numbers();
        let days = &COLLATERAL_DAYS;
        adding(
            add_collateral_numbers,
            item,
            |item| *item,
            days,
            &before,
            start,
        );
    }
}

#[test]
fn adding_guarantees_and_swaps() {
    for count in 0..ITEMS {
        let promises = held(&[PROMISE; ITEMS][..count]);
        let before = Record::new(REPO, &[STOCK; ITEMS], &promises);
        let start = GUARANTEE_START + count * HeldGuarantee::LENGTH;
        let days = &GUARANTEE_DAYS;
        let kept = |item: &_| HeldGuarantee::from(Guarantee::from_numbers(item)).to_numbers();
        let item = PROMISE.to_numbers();
        adding(add_guarantee_numbers, item, kept, days, &before, start);
        let kept = |item: &_| HeldGuarantee::from(Swap::from_numbers(item)).to_numbers();
        for restructuring in [0, 1] {
            let mut item = [restructuring; Swap::LENGTH];
            item[..Guarantee::LENGTH].copy_from_slice(&PROMISE.to_numbers());
            adding(add_swap_numbers, item, kept, days, &before, start);
        }
    }
}

/// Cash, equity and gold have the life 0 and no other.
#[test]
fn goods_without_a_life() {
    for goods in [1, 7, 8, 9] {
        let terms = |lent_issue_life| Terms {
            lent_type: goods,
            lent_step: 0,
            lent_issue_life,
            ..REPO
        };
        let mut record = open(&terms(0)).expect("accepted terms");
        let mut add = |issue_life| {
            let item = Collateral {
                goods,
                step: 0,
                issue_life,
                ..STOCK
            };
            add_collateral(&mut record, &item)
        };
        assert_eq!(add(0), Ok(()));
        for life in [1, 36_000, LONGEST, LONGEST + 1] {
            assert_eq!(open(&terms(life)), Err(Refusal(5)));
            assert_eq!(add(life), Err(Refusal(5)));
        }
    }
}

/// 5 comes before 7.
#[test]
fn residual_above_original() {
    let mut record = open(&REPO).expect("accepted terms");
    for (residual_term, original_term, refusal) in [
        (LONGEST, LONGEST - 1, 7),
        (LONGEST + 1, LONGEST, 5),
        (LONGEST + 1, LONGEST + 1, 5),
        (LONGEST - 1, LONGEST + 1, 5),
    ] {
        let stock = Collateral {
            residual_term,
            original_term,
            ..STOCK
        };
        let promise = Guarantee {
            residual_term,
            original_term,
            ..PROMISE
        };
        assert_eq!(add_collateral(&mut record, &stock), Err(Refusal(refusal)));
        assert_eq!(add_guarantee(&mut record, &promise), Err(Refusal(refusal)));
    }
}

/// A book of the repo with one stock and one guarantee, with these days in one
/// field of one of its lines, the header being line 1.
fn book(edition: u64, line: usize, field: usize, days: u64) -> Vec<u8> {
    let terms = Terms { edition, ..REPO };
    let (mut stock, mut promise) = (STOCK.to_numbers(), PROMISE.to_numbers());
    let mut terms = terms.to_numbers();
    match line {
        2 => terms[field] = days,
        3 => stock[field] = days,
        _ => promise[field] = days,
    }
    let guarantee = Guarantee::from_numbers(&promise);
    let lines = [
        terms_line(&Terms::from_numbers(&terms)),
        collateral_line(&Collateral::from_numbers(&stock)),
        guarantee_line(edition, &guarantee),
    ];
    headed(edition, &lines)
}

#[test]
fn books() {
    let fields = [
        (2, &TERMS_DAYS[..]),
        (3, &COLLATERAL_DAYS),
        (4, &GUARANTEE_DAYS),
    ];
    for (line, fields) in fields {
        for field in fields {
            let answered = |days| {
                [1, 2, 3].map(|edition| {
                    let mut results = [0; 4];
                    let book = book(edition, line, *field, days);
                    assert_eq!(answer_book(&book, &mut results), Ok(1));
                    results
                })
            };
            for days in EDGES {
                // 1,040,000 - 48,000, not above the amount, of which 10,000 weigh 0.
                assert_eq!(answered(days), [[1, 0, 992_000, 982_000]; 3], "{days}");
            }
            for days in [LONGEST + 1, (1 << 17) + 1800, (1 << 32) + 1800] {
                assert_eq!(answered(days), [[1, 5, line as u64, 0]; 3], "{days}");
            }
        }
    }
}
