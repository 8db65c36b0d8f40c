//! S lines and adding swaps (02: L1): books under every header, fields, refusals
//! and the one list that guarantees and swaps share.

mod common;

use common::*;
use reference::{
    add_collateral, add_guarantee, add_swap, answer_book, deals, open, printed, printed_reports,
    report, Collateral, Cover, DealRead, Guarantee, Outcome, Record, Swap, Terms,
};

const ROUNDS: u64 = 20_000;

/// Both take a book and what is printed for it with tabs shown as spaces.
fn assert_reports(book: &str, reports: &str) {
    assert_eq!(spaced(&printed_reports(&tabbed(book))), reports);
}

fn assert_answers(book: &str, answers: &str) {
    assert_eq!(spaced(&printed(&tabbed(book))), answers);
}

fn spaced(printed: &[u8]) -> String {
    String::from_utf8_lossy(printed).replace('\t', " ")
}

const HEADED_1: &str = "\
CRM 1
D 1000000 3 0 978 3 1 1800 1 0 0
C 400000 2 1 720 978 1800 1800 1 1 1 0
G 200000 1 1 978 1800 1800 1 1 1
S 200000 2 1 978 1800 1800 1 1 1 0
S 200000 1 1 840 1800 1800 1 1 1 1
D 900 4 0 978 3 1 90 1 0 0
S 1000 2 0 978 90 90 1 1 1 0
S 100 3 0 978 90 90 1 1 1 1
D 900 4 0 978 3 1 90 1 0 0
S 1000 2 0 978 90 90 1 1 1 2
";

#[test]
fn a_book_headed_1() {
    // Deal 1 is that of document 01 with two swaps: 120,000 at 20 and 184,000 at
    // 0. The two at 0 cover 384,000, the bank 120,000 of the 227,314 that are
    // left: 120,000 × 20 + 107,314 × 100 = 13,131,400. Deal 2: 60 percent of 900
    // at 50, without a floor: 540 × 50 + 360 × 75 = 54,000.
    let reports = "\
REPORT 2
1 EXPOSURE 611314
1 COLLATERAL 1 VALUE 388686 11314 0 0
1 GUARANTEE 1 VALUE 200000 0 0 0 200000
1 SWAP 2 VALUE 120000 0 0 80000 120000
1 SWAP 3 VALUE 184000 16000 0 0 184000
1 REST 107314
1 WEIGHTED 131314
2 EXPOSURE 900
2 SWAP 1 VALUE 540 0 0 460 540
2 SWAP 2 GROUND 28 100 0
2 REST 360
2 WEIGHTED 540
3 REFUSED 8 11
";
    assert_reports(HEADED_1, reports);
    let answers = "\
RESULT 1
1 0 611314 131314
2 0 900 540
3 8 11 0
";
    assert_answers(HEADED_1, answers);
}

const HEADED_2: &str = "\
CRM 2
D 900 4 0 0 978 3 1 90 1 0 0
S 1000 2 0 3 978 90 90 1 1 1 0
S 1000 2 0 4 978 90 90 1 1 1 1
D 1000 3 0 6 978 3 1 90 1 0 0
S 1000 2 0 4 978 90 90 1 1 1 0
G 300 2 0 3 978 90 90 1 1 1
";

#[test]
fn a_book_headed_2() {
    // Sovereigns at steps 3 and 4 weigh 50 and 100: the second bank is not below
    // retail. Deal 2, at 150 by its sovereign: the guarantee at 50 covers 300
    // first, the swap 600 at 100: 15,000 + 60,000 + 100 × 150 = 90,000.
    let reports = "\
REPORT 2
1 EXPOSURE 900
1 SWAP 1 VALUE 540 0 0 460 540
1 SWAP 2 GROUND 29 1000 0
1 REST 360
1 WEIGHTED 540
2 EXPOSURE 1000
2 SWAP 1 VALUE 600 0 0 400 600
2 GUARANTEE 2 VALUE 300 0 0 0 300
2 REST 100
2 WEIGHTED 900
";
    assert_reports(HEADED_2, reports);
    assert_answers(HEADED_2, "RESULT 1\n1 0 900 540\n2 0 1000 900\n");
}

const HEADED_3: &str = "\
CRM 3
D 1000000 3 5 0 978 2 1 1800 1 0 0
S 2000000 2 2 6 978 1800 1800 1 1 1 0
G 500000 3 3 6 840 1800 1800 1 1 1
S 300000 2 0 1 978 1800 1800 1 1 1 1
";

#[test]
fn a_book_headed_3() {
    // At 150, like the unrated bank. 600,000 at 30, then 400,000 of 460,000 at
    // 75: 18,000,000 + 30,000,000.
    let reports = "\
REPORT 2
1 EXPOSURE 1000000
1 SWAP 1 VALUE 600000 0 0 1400000 600000
1 GUARANTEE 2 VALUE 460000 40000 0 0 400000
1 SWAP 3 GROUND 29 300000 0
1 REST 0
1 WEIGHTED 480000
";
    assert_reports(HEADED_3, reports);
    assert_answers(HEADED_3, "RESULT 1\n1 0 1000000 480000\n");
}

#[test]
fn lines_are_read_as_they_are_sent() {
    let bank = Guarantee {
        amount: 500,
        currency: 840,
        residual: 700,
        original: 900,
        ..guarantee_of([2, 4, 5])
    };
    for edition in EDITIONS {
        // Lines of edition 1 leave the sovereign's step out.
        let sovereign_step = if edition == 1 { 0 } else { 5 };
        let bank = Guarantee {
            sovereign_step,
            ..bank
        };
        let terms = Terms { edition, ..TERMS };
        let items = [
            swap_for(bank).into(),
            bank.into(),
            met(swap_for(bank)).into(),
        ];
        let book = covered_book(&terms, &items);
        let read = vec![DealRead::Accepted(Box::new(covered(terms, &items)))];
        assert_eq!(deals(book.as_bytes()), Ok(read), "{book:?}");
    }
}

#[test]
fn restructuring_is_the_last_number_of_the_line() {
    let conditions = |text: &str| {
        let book = format!("CRM 1\nD 1000 3 0 978 3 1 90 1 0 0\nS 1000 1 1 978 90 90 {text}\n");
        let mut results = [0; 4];
        answer_book(&tabbed(&book), &mut results);
        results[3]
    };
    // All but 0 are left out on a ground and leave 1,000 at 100.
    assert_eq!(conditions("1 1 1 0"), 400);
    assert_eq!(conditions("1 1 1 1"), 0);
    assert_eq!(conditions("0 1 1 1"), 1_000);
    assert_eq!(conditions("1 0 1 1"), 1_000);
    assert_eq!(conditions("1 1 0 1"), 1_000);
}

/// Refusal and line number of the answer to lines behind a sound D line, the
/// book's second.
fn refused_line(edition: u64, lines: &str) -> [u64; 2] {
    let terms = Terms { edition, ..TERMS };
    let book = header(edition) + &terms_line(&terms) + lines;
    let [_, refusal, line, _] = four_numbers(&book);
    [refusal, line]
}

#[test]
fn wrong_numbers_of_fields_are_11() {
    // With the letter: 11 under header 1, 12 under 2 and 3.
    for (edition, expected) in [(1, 11), (2, 12), (3, 12)] {
        for fields in 2..=16 {
            let mut numbers = sent_swap(&SWAP, edition);
            numbers.resize(fields - 1, 1);
            let refusal = refused_line(edition, &line('S', &numbers))[0];
            let right = fields == expected;
            assert_eq!(refusal, if right { 0 } else { 11 }, "{edition} {fields}");
        }
    }
}

#[test]
fn lines_of_another_edition_or_letter_are_11() {
    let first = swap_line(&SWAP, 1);
    let later = swap_line(&SWAP, 2);
    assert_eq!(refused_line(1, &first)[0], 0);
    assert_eq!(refused_line(1, &later), [11, 3]);
    for edition in WITH_SOVEREIGN {
        assert_eq!(refused_line(edition, &first), [11, 3]);
        assert_eq!(refused_line(edition, &later)[0], 0);
    }
    for edition in EDITIONS {
        // A guarantee has no restructuring condition and a swap does not do
        // without.
        let guarantee = guarantee_line(&GUARANTEE, edition);
        let swap = swap_line(&SWAP, edition);
        let longer = swap.replacen('S', "G", 1);
        let shorter = guarantee.replacen('G', "S", 1);
        assert_eq!(refused_line(edition, &longer), [11, 3]);
        assert_eq!(refused_line(edition, &shorter), [11, 3]);
    }
}

#[test]
fn a_malformed_line_is_11() {
    for edition in EDITIONS {
        let sound = swap_line(&SWAP, edition);
        let ends = sound.len() - 1;
        assert_eq!(refused_line(edition, &sound)[0], 0);
        for bad in [
            sound.replacen('S', "s", 1),
            sound.replacen('S', "SS", 1),
            sound.replacen('S', " S", 1),
            sound.replacen('S', "", 1),
            sound.replace('\t', " "),
            sound.replacen('\t', "\t\t", 1),
            sound.replace('\n', "\t\n"),
            sound.replace('\n', "\r\n"),
            sound.replace("\t0\n", "\t00\n"),
            sound.replace("\t0\n", "\t01\n"),
            sound.replace("\t0\n", "\t\n"),
            sound.replace("\t0\n", "\tx\n"),
            sound.replace("\t0\n", "\t-1\n"),
            sound.replace("\t0\n", "\t10000000000000\n"),
            sound[..ends].to_string(),
            "S\n".to_string(),
            "S\t\n".to_string(),
            "S".to_string(),
        ] {
            assert_ne!(bad, sound);
            assert_eq!(refused_line(edition, &bad), [11, 3], "{bad:?}");
            let behind = swap_line(&SWAP, edition) + &bad;
            assert_eq!(refused_line(edition, &behind), [11, 4], "{bad:?}");
        }
    }
}

#[test]
fn a_swap_before_any_deal_is_12() {
    for edition in EDITIONS {
        let terms = Terms { edition, ..TERMS };
        let book = header(edition) + &swap_line(&SWAP, edition);
        for book in [book.clone(), book + &terms_line(&terms)] {
            let mut results = [77; 8];
            let reply = answer_book(book.as_bytes(), &mut results);
            assert_eq!([reply.refusal, reply.deals as u64], [12, 0]);
            assert_eq!(results, [77; 8]);
            assert_eq!(printed(book.as_bytes()), b"REFUSED\t12\n");
            assert_eq!(deals(book.as_bytes()), Err(12));
        }
    }
}

/// Refusal of adding to a deal with free places, which it must not change.
fn adding(item: Swap) -> u64 {
    let before = covered(TERMS, &[GUARANTEE.into(), SWAP.into()]);
    let mut record = before.clone();
    let refusal = add_swap(&mut record, item);
    let mut expected = before;
    if refusal == 0 {
        expected.guarantees[2] = Cover::Swap(item);
        expected.guarantee_count = 3;
    }
    assert_eq!(record, expected);
    refusal
}

/// Place of a number among the eleven, what is sent there, and the refusal.
const EDGES: [(usize, u64, u64); 36] = [
    (0, 0, 0),
    (0, 1_000_000_000_000, 0),
    (0, 1_000_000_000_001, 1),
    (0, 9_999_999_999_999, 1),
    (1, 0, 2),
    (1, 3, 0),
    (1, 4, 2),
    (1, 9_999_999_999_999, 2),
    (2, 0, 0),
    (2, 6, 0),
    (2, 7, 3),
    (2, 4_294_967_297, 3),
    (4, 0, 4),
    (4, 999, 0),
    (4, 1_000, 4),
    (4, 4_294_968_274, 4),
    (5, 0, 5),
    (5, 1, 0),
    (5, 1_801, 7),
    (5, 100_000, 7),
    (5, 100_001, 5),
    (6, 0, 5),
    (6, 1_799, 7),
    (6, 100_000, 0),
    (6, 100_001, 5),
    (7, 0, 0),
    (7, 2, 8),
    (8, 0, 0),
    (8, 2, 8),
    (9, 0, 0),
    (9, 2, 8),
    (10, 0, 0),
    (10, 1, 0),
    (10, 2, 8),
    (10, 4_294_967_297, 8),
    (10, 9_999_999_999_999, 8),
];

#[test]
fn edges_of_adding_a_swap() {
    for (place, number, refusal) in EDGES {
        let mut fields = swap_fields(&SWAP);
        fields[place] = number;
        assert_eq!(adding(fields.into()), refusal, "{place} {number}");
        for edition in EDITIONS {
            let found = refused_line(edition, &swap_line(&fields.into(), edition));
            match refusal {
                0 => assert_eq!(found[0], 0, "{place} {number}"),
                _ => assert_eq!(found, [refusal, 3], "{place} {number}"),
            }
        }
    }
}

#[test]
fn a_restructuring_condition_neither_0_nor_1_is_8() {
    // 2^32 + 1 and 2^40 + 1 would be 1 if cut to 32 bits, 2^8 would be 0.
    for restructuring in [2, 3, 10, 256, 257, 4_294_967_297, 1_099_511_627_777] {
        let swap = Swap {
            restructuring,
            ..SWAP
        };
        assert_eq!(adding(swap), 8, "{restructuring}");
        for edition in EDITIONS {
            let found = refused_line(edition, &swap_line(&swap, edition));
            assert_eq!(found, [8, 3], "{restructuring}");
        }
    }
    let largest = Swap {
        restructuring: u64::MAX,
        ..SWAP
    };
    assert_eq!(adding(largest), 8);
}

#[test]
fn a_wrong_sovereign_step_is_3() {
    for class in 1..=3 {
        for sovereign_step in [0, 1, 6, 7, 256, 9_999_999_999_999] {
            let swap = swap_for(guarantee_of([class, 0, sovereign_step]));
            let wrong = !sovereign_fits(class, sovereign_step);
            let refusal = if wrong { 3 } else { 0 };
            assert_eq!(adding(swap), refusal, "{swap:?}");
            for edition in WITH_SOVEREIGN {
                let found = refused_line(edition, &swap_line(&swap, edition))[0];
                assert_eq!(found, refusal, "{swap:?}");
            }
        }
    }
}

#[test]
fn adding_a_swap_gives_the_first_refusal() {
    let mut fields = [9_999_999_999_999; 11];
    fields[6] = 0;
    for (place, sound, refusal) in [
        (0, 0, 1),
        (1, 2, 2),
        (2, 0, 3),
        (3, 6, 3),
        (4, 978, 4),
        (6, 5, 5),
        (5, 6, 5),
        (5, 5, 7),
        (7, 1, 8),
        (8, 0, 8),
        (9, 1, 8),
        (10, 0, 8),
    ] {
        let swap = Swap::from(fields);
        assert_eq!(adding(swap), refusal, "field {place}");
        for edition in WITH_SOVEREIGN {
            let found = refused_line(edition, &swap_line(&swap, edition));
            assert_eq!(found, [refusal, 3], "field {place}");
        }
        fields[place] = sound;
    }
    assert_eq!(adding(Swap::from(fields)), 0);
}

#[test]
fn the_restructuring_condition_is_tested_after_all_else() {
    let spoilt = Swap {
        restructuring: 2,
        ..SWAP
    };
    for (place, number, refusal) in EDGES {
        let mut fields = swap_fields(&spoilt);
        fields[place] = number;
        if place < 10 {
            let expected = if refusal == 0 { 8 } else { refusal };
            assert_eq!(adding(fields.into()), expected, "{place} {number}");
        }
    }
}

#[test]
fn a_swap_is_refused_as_a_guarantee_is() {
    let mut random = Random::new(52);
    let (mut alike, mut by_restructuring) = (0, 0);
    for _ in 0..ROUNDS {
        let record = random.deal();
        let mut fields = swap_fields(&random.swap());
        if random.chance(2) {
            random.spoil(&mut fields);
        }
        let swap = Swap::from(fields);
        let [mut with_swap, mut with_guarantee] = [record.clone(), record.clone()];
        let as_swap = add_swap(&mut with_swap, swap);
        let as_guarantee = add_guarantee(&mut with_guarantee, swap.guarantee);
        if as_guarantee == 0 && swap.restructuring > 1 {
            assert_eq!(as_swap, 8, "{swap:?}");
            by_restructuring += 1;
        } else {
            assert_eq!(as_swap, as_guarantee, "{swap:?}");
            alike += u64::from(as_swap != 0);
        }
        if as_swap != 0 {
            assert_eq!(with_swap, record);
        }
    }
    assert!(alike > ROUNDS / 10 && by_restructuring > ROUNDS / 100);
}

/// As many guarantees as said, the rest of the sixteen places swaps.
fn full_list(guarantees: usize) -> [Cover; 16] {
    let mut items = [SWAP.into(); 16];
    items[..guarantees].fill(GUARANTEE.into());
    items
}

#[test]
fn a_seventeenth_of_both_together_is_6() {
    let spoilt = Swap::from([u64::MAX; 11]);
    for guarantees in 0..=16 {
        let mut items = full_list(guarantees);
        for _ in 0..2 {
            items.reverse();
            let full = covered(TERMS, &items);
            let mut record = full.clone();
            assert_eq!(add_swap(&mut record, SWAP), 6);
            assert_eq!(add_guarantee(&mut record, GUARANTEE), 6);
            assert_eq!(add_swap(&mut record, spoilt), 6);
            assert_eq!(add_guarantee(&mut record, spoilt.guarantee), 6);
            assert_eq!(record, full);
            // The other list has room of its own.
            assert_eq!(add_collateral(&mut record, CASH), 0);
        }
    }
    let mut record = deal(TERMS, &[CASH; 16], &[]);
    assert_eq!(add_swap(&mut record, SWAP), 0);
}

#[test]
fn a_seventeenth_line_of_both_together_is_6() {
    for edition in EDITIONS {
        let swap = swap_line(&SWAP, edition);
        let guarantee = guarantee_line(&GUARANTEE, edition);
        for guarantees in 0..=16 {
            let items = full_list(guarantees);
            let lines = items.map(|item| cover_line(&item, edition)).concat();
            assert_eq!(refused_line(edition, &lines)[0], 0);
            for last in [&swap, &guarantee] {
                let found = refused_line(edition, &(lines.clone() + last));
                assert_eq!(found, [6, 19], "{edition} {guarantees}");
            }
            // A malformed one is not read at all; a spoilt one is one too many.
            let malformed = lines.clone() + "S\t1\n";
            assert_eq!(refused_line(edition, &malformed), [11, 19]);
            let spoilt = lines + &swap.replace("\t0\n", "\t2\n");
            assert_eq!(refused_line(edition, &spoilt), [6, 19]);
        }
    }
}

#[test]
fn guarantees_and_swaps_stand_in_one_list_by_arrival() {
    let whole = met(swap_for(guarantee_of([2, 3, 4])));
    let record = covered(TERMS, &[SWAP.into(), GUARANTEE.into(), whole.into()]);
    let mut expected = open(TERMS).expect("accepted terms");
    expected.guarantee_count = 3;
    expected.guarantees[0] = Cover::Swap(SWAP);
    expected.guarantees[1] = Cover::Guarantee(GUARANTEE);
    expected.guarantees[2] = Cover::Swap(whole);
    assert_eq!(record, expected);
}

#[test]
fn adding_a_swap_changes_only_the_next_place_and_the_count() {
    let mut record = covered(TERMS, &[GUARANTEE.into()]);
    for (place, item) in record.guarantees.iter_mut().enumerate().skip(1) {
        *item = if place % 2 == 0 {
            Guarantee::from([u64::MAX; 10]).into()
        } else {
            Swap::from([u64::MAX; 11]).into()
        };
    }
    record.collateral = [Collateral::from([u64::MAX; 11]); 16];
    let mut expected = record.clone();
    expected.guarantees[1] = Cover::Swap(SWAP);
    expected.guarantee_count = 2;
    assert_eq!(add_swap(&mut record, SWAP), 0);
    assert_eq!(record, expected);
}

/// A deal of one guarantee and two swaps.
fn sound_record() -> Record {
    covered(TERMS, &[SWAP.into(), GUARANTEE.into(), met(SWAP).into()])
}

#[test]
fn a_counted_swap_that_would_be_refused_is_40() {
    let sound = sound_record();
    assert_eq!(refusals(&sound), [0; 4]);
    for place in 0..4 {
        for field in 0..11 {
            let mut fields = swap_fields(&SWAP);
            fields[field] = 9_999_999_999_999;
            let mut record = sound.clone();
            record.guarantees[place] = Cover::Swap(fields.into());
            let expected = if place < 3 { 40 } else { 0 };
            assert_eq!(refusals(&record), [expected; 4], "{place} {field}");
        }
    }
    let mut record = sound;
    shared(&mut record.guarantees[0]).original = 1_799;
    assert_eq!(refusals(&record), [40; 4]);
}

#[test]
fn a_counted_swap_with_restructuring_2_is_40() {
    for restructuring in [2, 3, 256, 1 << 32, (1 << 32) + 1, u64::MAX] {
        for place in 0..16 {
            let mut record = sound_record();
            record.guarantees[place] = Cover::Swap(Swap {
                restructuring,
                ..SWAP
            });
            if place < 3 {
                assert_eq!(refusals(&record), [40; 4], "{place}");
                let reply = report(&record);
                assert_eq!([reply.exposure, reply.rest, reply.weighted], [0; 3]);
                assert_eq!(reply.guarantees, [(Outcome::default(), 0); 16]);
            } else {
                assert_eq!(refusals(&record), [0; 4], "{place}");
                assert_eq!(report(&record), report(&sound_record()));
            }
        }
    }
}

#[test]
fn counts_above_sixteen_are_40_with_swaps_too() {
    let mut record = covered(TERMS, &[SWAP.into(); 16]);
    assert_eq!(report(&record).refusal, 0);
    for count in [17, 255, 1 << 32, (1 << 32) + 1, u64::MAX] {
        record.guarantee_count = count;
        assert_eq!(refusals(&record), [40; 4], "{count}");
    }
}
