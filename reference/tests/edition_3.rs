//! Edition 3 (02: L9): its books, lines and refusals, and that nothing changes
//! but what the request lists, for it or for the editions before it.

mod common;

use common::*;
use reference::{
    answer_book, deals, open, printed, printed_reports, report, Collateral, DealRead, Guarantee,
    Outcome, Record, Terms,
};

const ROUNDS: u64 = 20_000;

const HEADED_3: &str = "\
CRM 3
D 1000000 2 0 1 978 2 1 1800 1 0 0
C 100000 3 1 1080 978 1800 1800 1 1 1 0
C 100000 4 0 3601 978 1800 1800 1 1 1 1
C 100000 9 0 0 840 1800 1800 1 1 1 0
G 200000 2 2 6 978 1800 1800 1 1 1
G 200000 3 3 6 840 1800 1800 1 1 1
G 200000 2 0 1 978 1800 1800 1 1 1
D 1000000 3 3 0 978 1 6 360 4 0 500
C 500000 7 0 0 978 360 360 1 1 1 0
C 200000 8 0 0 978 360 360 1 1 1 0
C 100000 5 2 3601 978 360 360 1 1 1 0
C 100000 2 4 3601 978 360 360 1 1 1 0
C 100000 2 1 1081 978 360 360 1 1 1 0
D 1000000 3 0 6 978 2 1 1800 1 0 0
C 1000000 3 2 1801 978 900 1080 1 1 1 0
G 500000 1 0 0 978 1800 1800 1 1 1
D 900 4 0 978 3 1 90 1 0 0
D 900 4 0 0 978 3 1 90 1 0 0
";

#[test]
fn reports_of_a_book_headed_3() {
    // All periods are n = 10. Deal 1, at 150: 3, 20, and 20 + 8 percent; the
    // guarantees at 30 and 75: 200,000 × 30 + 184,000 × 75 + 367,000 × 150.
    // Deal 2, at 75: raised to 1,300,000; 20, 30, 24, 15 and 2 percent.
    // Deal 3, at 150: 880,000 × 810 / 1,710; 500,000 × 100 + 83,158 × 150.
    let reports = "\
REPORT 2
1 EXPOSURE 751000
1 COLLATERAL 1 VALUE 97000 3000 0 0
1 COLLATERAL 2 VALUE 80000 20000 0 0
1 COLLATERAL 3 VALUE 72000 28000 0 0
1 GUARANTEE 1 VALUE 200000 0 0 0 200000
1 GUARANTEE 2 VALUE 184000 16000 0 0 184000
1 GUARANTEE 3 GROUND 29 200000 0
1 REST 367000
1 WEIGHTED 748500
2 EXPOSURE 501000
2 COLLATERAL 1 VALUE 400000 100000 0 0
2 COLLATERAL 2 VALUE 140000 60000 0 0
2 COLLATERAL 3 VALUE 76000 24000 0 0
2 COLLATERAL 4 VALUE 85000 15000 0 0
2 COLLATERAL 5 VALUE 98000 2000 0 0
2 REST 501000
2 WEIGHTED 375750
3 EXPOSURE 583158
3 COLLATERAL 1 VALUE 416842 120000 463158 0
3 GUARANTEE 1 VALUE 500000 0 0 0 500000
3 REST 83158
3 WEIGHTED 624737
4 REFUSED 11 18
5 EXPOSURE 900
5 REST 900
5 WEIGHTED 675
";
    assert_eq!(printed_reports(&tabbed(HEADED_3)), tabbed(reports));
}

#[test]
fn the_answer_to_a_book_headed_3_is_headed_1() {
    let answer = "\
RESULT 1
1 0 751000 748500
2 0 501000 375750
3 0 583158 624737
4 11 18 0
5 0 900 675
";
    assert_eq!(printed(&tabbed(HEADED_3)), tabbed(answer));
    assert_eq!(printed(b"CRM\t3\n"), b"RESULT\t1\n");
}

#[test]
fn deals_of_a_book_headed_3_hold_edition_3() {
    let read = deals(&tabbed(HEADED_3)).expect("accepted book");
    for (place, deal) in read.iter().enumerate() {
        match deal {
            DealRead::Accepted(record) => assert_eq!(record.terms.edition, 3),
            DealRead::Refused { .. } => assert_eq!(place, 3),
        }
    }
    let DealRead::Accepted(first) = &read[0] else {
        panic!("{:?}", read[0]);
    };
    let terms = Terms {
        kind: 2,
        ..terms_of([2, 0, 1], 3)
    };
    assert_eq!(first.terms, terms);
    let second = Guarantee {
        amount: 200_000,
        currency: 840,
        ..guarantee_of([3, 3, 6])
    };
    assert_eq!(first.guarantees[1], second.into());
}

/// The lines of a sound deal of edition 3.
fn sound_lines() -> [String; 3] {
    [
        terms_line(&terms_of([2, 0, 5], 3)),
        collateral_line(&pledged([4, 0, 3_601, 1], 1_000)),
        guarantee_line(&guarantee_of([2, 2, 5]), 3),
    ]
}

/// The line with another text for one field, or with a field more or less.
fn malformed(line: &str) -> Vec<String> {
    let fields: Vec<&str> = line.trim_end().split('\t').collect();
    let mut bad = Vec::new();
    for place in 1..fields.len() {
        for text in [
            "",
            "00",
            "01",
            "-1",
            "+1",
            " 1",
            "1.",
            "x",
            "10000000000000",
        ] {
            let mut changed = fields.clone();
            changed[place] = text;
            bad.push(changed.join("\t") + "\n");
        }
        let mut fewer = fields.clone();
        fewer.remove(place);
        bad.push(fewer.join("\t") + "\n");
        let mut more = fields.clone();
        more.insert(place, "1");
        bad.push(more.join("\t") + "\n");
    }
    bad.push(line.replace('\n', "\r\n"));
    bad.push(line.replace('\n', "\t\n"));
    bad.push(line.to_lowercase());
    bad.push(line.replace('\t', " "));
    bad
}

#[test]
fn a_malformed_line_of_edition_3_is_11() {
    let [d, c, g] = sound_lines();
    // Unrated bank at 150: 1,000 less 20 percent × √2 is 717 rounded down, then
    // 1,000 at 30: 1,000 × 30 + 998,283 × 150 = 149,772,450.
    let sound = [header(3), d.clone(), c.clone(), g.clone()].concat();
    assert_eq!(four_numbers(&sound), [1, 0, 999_283, 1_497_725]);
    for bad in malformed(&d).iter().filter(|line| line.starts_with("D\t")) {
        let book = [&header(3), bad, &c, &g].map(String::as_str).concat();
        assert_eq!(four_numbers(&book), [1, 11, 2, 0], "{bad:?}");
    }
    for bad in malformed(&c).iter().chain(&malformed(&g)) {
        let book = [&header(3), &d, &c, &g, bad].map(String::as_str).concat();
        assert_eq!(four_numbers(&book), [1, 11, 5, 0], "{bad:?}");
    }
    for unended in [&d, &c, &g] {
        let book = header(3) + &d + unended.trim_end();
        let mut results = [0; 8];
        let deals = answer_book(book.as_bytes(), &mut results).deals;
        assert_eq!(results[4 * deals - 3..4 * deals], [11, 3, 0], "{unended:?}");
    }
}

#[test]
fn lines_of_edition_1_are_11_under_header_3() {
    let [d, c, g] = sound_lines();
    let d1 = terms_line(&TERMS);
    let g1 = guarantee_line(&GUARANTEE, 1);
    let first = [header(3), d1.clone(), c.clone(), g.clone()].concat();
    assert_eq!(four_numbers(&first), [1, 11, 2, 0]);
    let last = [header(3), d.clone(), c.clone(), g1].concat();
    assert_eq!(four_numbers(&last), [1, 11, 4, 0]);
    // The same lines are sound under headers 2 and 3.
    for (edition, refusal) in [(1, 11), (2, 0), (3, 0)] {
        let book = [header(edition), d.clone(), c.clone(), g.clone()].concat();
        assert_eq!(four_numbers(&book)[1], refusal, "{edition}");
    }
}

#[test]
fn the_operations_refuse_under_edition_3_as_before() {
    let [d, _, _] = sound_lines();
    let opening = |party| terms_line(&terms_of(party, 3));
    for (line, refusal) in [
        (opening([1, 1, 1]), 3),
        (opening([4, 0, 1]), 3),
        (opening([4, 1, 0]), 3),
        (opening([2, 0, 7]), 3),
        (opening([2, 7, 0]), 3),
        (opening([5, 0, 0]), 2),
    ] {
        let found = four_numbers(&(header(3) + &line));
        assert_eq!(found, [1, refusal, 2, 0], "{line:?}");
    }
    let long = pledged([3, 1, 100_001, 0], 1_000);
    let early = guarantee_of([1, 1, 1]);
    let unknown = guarantee_of([4, 0, 0]);
    for (line, refusal) in [
        (collateral_line(&pledged([7, 1, 0, 0], 1_000)), 3),
        (collateral_line(&long), 5),
        (collateral_line(&pledged([4, 0, 360, 2], 1_000)), 8),
        (guarantee_line(&early, 3), 3),
        (guarantee_line(&unknown, 3), 2),
    ] {
        let found = four_numbers(&[header(3), d.clone(), line.clone()].concat());
        assert_eq!(found, [1, refusal, 3, 0], "{line:?}");
    }
}

#[test]
fn other_headers_are_9_and_leave_the_list_untouched() {
    let lines = sound_lines().concat();
    for second in [
        "4", "5", "0", "9", "13", "30", "33", "03", "+3", " 3", "3 ", "3.", "3\t", "3\t3", "3\r",
        "", "x",
    ] {
        let book = format!("CRM\t{second}\n{lines}");
        let mut results = [77; 8];
        let reply = answer_book(book.as_bytes(), &mut results);
        assert_eq!([reply.refusal, reply.deals as u64], [9, 0], "{second:?}");
        assert_eq!(results, [77; 8]);
        assert_eq!(printed(book.as_bytes()), b"REFUSED\t9\n");
        assert_eq!(deals(book.as_bytes()), Err(9));
    }
    assert_eq!(printed(b"CRM\t3"), b"REFUSED\t9\n");
    assert_eq!(printed(b"CRM\t4\n"), b"REFUSED\t9\n");
}

#[test]
fn edition_3_is_accepted_and_edition_4_refused() {
    let third = terms_of([2, 0, 5], 3);
    let record = deal(third, &[CASH], &[GUARANTEE]);
    assert_eq!(refusals(&record), [0; 4]);
    // From 7 on they would be 3 if cut to 2, 8, 16 or 32 bits.
    for edition in [4, 5, 7, 259, (1 << 16) + 3, (1 << 32) + 3, u64::MAX] {
        let terms = Terms { edition, ..third };
        assert_eq!(open(terms), Err(2), "{edition}");
        let over = Terms {
            amount: 1_000_000_000_001,
            ..terms
        };
        assert_eq!(open(over), Err(1), "{edition}");
        let mut record = record.clone();
        record.terms = terms;
        assert_eq!(refusals(&record), [40; 4], "{edition}");
        let reply = report(&record);
        assert_eq!([reply.exposure, reply.rest, reply.weighted], [0; 3]);
        assert_eq!(reply.collateral, [Outcome::default(); 16]);
        assert_eq!(reply.guarantees, [(Outcome::default(), 0); 16]);
    }
}

#[test]
fn the_largest_accepted_numbers_of_edition_3() {
    let amount = 1_000_000_000_000;
    for goods in 1..=9 {
        let debt = (2..=6).contains(&goods);
        let [step, life] = if debt { [3, 100_000] } else { [0, 0] };
        let terms = Terms {
            amount,
            interval: 250,
            residual: 100_000,
            lent_goods: goods,
            lent_step: step,
            lent_life: life,
            ..terms_of([2, 0, 6], 3)
        };
        let item = Collateral {
            currency: 840,
            residual: 99_999,
            original: 100_000,
            ..pledged([goods, step, life, 0], amount)
        };
        let guarantee = Guarantee {
            amount,
            residual: 99_999,
            original: 100_000,
            ..guarantee_of([2, 2, 6])
        };
        let bare = report(&deal(terms, &[], &[]));
        assert_eq!([bare.exposure, bare.weighted], [amount, amount / 2 * 3]);
        let full = report(&deal(terms, &[item; 16], &[guarantee; 16]));
        assert!(full.exposure <= amount && full.weighted <= amount / 10 * 3);
        assert_eq!(full.rest, 0);
    }
}

/// The deal with other goods and parties in place of those that L9 lists.
fn without_what_changes(record: &Record) -> Record {
    let mut kept = record.clone();
    for item in &mut kept.collateral {
        match item.goods {
            3 | 4 => item.goods = 2,
            7..=9 => item.goods = 1,
            _ => {}
        }
    }
    let terms = &mut kept.terms;
    let eligible = match terms.lent_goods {
        2 => (1..=4).contains(&terms.lent_step),
        5 => (1..=3).contains(&terms.lent_step),
        _ => false,
    };
    if !eligible {
        (terms.lent_goods, terms.lent_step, terms.lent_life) = (1, 0, 0);
    }
    let places = kept.guarantees.iter_mut();
    let providers = places.map(|item| {
        let item = shared(item);
        (item.class, &mut item.step)
    });
    for (class, step) in providers.chain([(terms.class, &mut terms.step)]) {
        match (class, *step) {
            (2, 0 | 2) => *step = 3,
            (3, 3) => *step = 4,
            _ => {}
        }
    }
    kept
}

#[test]
fn nothing_changes_but_what_is_listed() {
    let mut random = Random::new(41);
    let mut differing = 0;
    for _ in 0..ROUNDS {
        let record = random.deal();
        let kept = without_what_changes(&record);
        assert_eq!(report(&under(&kept, 3)), report(&under(&kept, 2)));
        differing += u64::from(report(&under(&record, 3)) != report(&under(&record, 2)));
    }
    assert!(differing > ROUNDS / 4, "{differing}");
}

/// A book headed 2 with parties of every class and step, goods of every type at
/// the edges of all bands, pledged and lent, and random deals, sound and spoilt;
/// and the reports that this crate printed for it before L9.
const RECORDED_BOOK: &str = include_str!("recorded/before_l9.book");
const RECORDED_REPORTS: &str = include_str!("recorded/before_l9.reports");

#[test]
fn answers_recorded_before_are_kept() {
    assert_recorded(RECORDED_BOOK, RECORDED_REPORTS);
}

#[test]
fn the_recorded_book_reaches_all_that_edition_3_changes() {
    let read = deals(RECORDED_BOOK.as_bytes()).expect("accepted book");
    let (mut pledged, mut lent, mut parties) = (Vec::new(), Vec::new(), Vec::new());
    for deal in &read {
        let DealRead::Accepted(record) = deal else {
            continue;
        };
        assert_eq!(record.terms.edition, 2);
        let items = record.collateral[..record.collateral_count as usize].iter();
        pledged.extend(items.map(|item| [item.goods, item.step, item.life, item.listed]));
        let terms = &record.terms;
        lent.push([terms.lent_goods, terms.lent_step, terms.lent_life, 0]);
        parties.push([terms.class, terms.step]);
    }
    for life in [360, 361, 1_080, 1_081, 1_800, 1_801, 3_600, 3_601] {
        for [goods, step] in [2, 3, 4, 5]
            .into_iter()
            .flat_map(|g| [1, 2, 3].map(|s| [g, s]))
        {
            let cell = [goods, step, life, 0];
            assert!(pledged.contains(&cell) && lent.contains(&cell), "{cell:?}");
        }
        assert!(pledged.contains(&[4, 0, life, 1]), "{life}");
    }
    for cell in [7, 8, 9].map(|goods| [goods, 0, 0, 0]) {
        assert!(pledged.contains(&cell) && lent.contains(&cell), "{cell:?}");
    }
    for (class, step) in [1, 2, 3]
        .into_iter()
        .flat_map(|c| (0..=6).map(move |s| (c, s)))
    {
        assert!(parties.contains(&[class, step]), "{class} {step}");
    }
}

#[test]
fn the_recorded_book_headed_3_has_other_answers() {
    let headed_3 = RECORDED_BOOK.replacen("CRM\t2\n", "CRM\t3\n", 1);
    let before = deals(RECORDED_BOOK.as_bytes()).expect("accepted book");
    let now = deals(headed_3.as_bytes()).expect("accepted book");
    assert_eq!(now.len(), before.len());
    let mut changed = 0;
    for (now, before) in now.iter().zip(&before) {
        match (now, before) {
            (DealRead::Accepted(now), DealRead::Accepted(before)) => {
                assert_eq!(under(now, 2), **before);
                changed += u64::from(report(now) != report(before));
            }
            // The lines are those of edition 2, and refused like them.
            _ => assert_eq!(now, before),
        }
    }
    assert!(changed > 100, "{changed}");
}
