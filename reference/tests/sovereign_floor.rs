//! Editions, the sovereign's step and the floor of its weight (02: L5).

mod common;

use common::*;
use reference::{
    add_guarantee, deals, open, printed, printed_reports, report, DealRead, Guarantee, Outcome,
    Record, Terms,
};

const ROUNDS: u64 = 20_000;
/// No edition of those that a deal may hold; the last ones would be if cut.
const UNKNOWN_EDITIONS: [u64; 7] = [0, 4, 9, 257, (1 << 16) + 2, (1 << 32) + 1, u64::MAX];

fn opening(terms: Terms) -> u64 {
    open(terms).err().unwrap_or(0)
}

/// The record as it would be if nothing were tested.
fn untested(terms: Terms, guarantee: Guarantee) -> Record {
    let mut record = deal(TERMS, &[], &[GUARANTEE]);
    record.terms = terms;
    record.guarantees[0] = guarantee.into();
    record
}

const SOVEREIGN_STEPS: [u64; 11] = [0, 1, 2, 3, 4, 5, 6, 7, 8, 256, 9_999_999_999_999];

#[test]
fn a_wrong_sovereign_step_of_the_counterparty_is_3() {
    for edition in EDITIONS {
        for class in 1..=4 {
            for sovereign_step in SOVEREIGN_STEPS {
                let terms = terms_of([class, 0, sovereign_step], edition);
                let wrong = !sovereign_fits(class, sovereign_step);
                let refusal = if wrong { 3 } else { 0 };
                assert_eq!(opening(terms), refusal, "{terms:?}");
                let refusals = refusals(&untested(terms, GUARANTEE));
                assert_eq!(refusals, [if wrong { 40 } else { 0 }; 4], "{terms:?}");
                if WITH_SOVEREIGN.contains(&edition) {
                    let found = four_numbers(&(header(edition) + &terms_line(&terms)));
                    assert_eq!(found[1], refusal, "{terms:?}");
                }
            }
        }
    }
}

#[test]
fn a_wrong_sovereign_step_of_a_provider_is_3() {
    for edition in EDITIONS {
        let terms = Terms { edition, ..TERMS };
        for class in 1..=3 {
            for sovereign_step in SOVEREIGN_STEPS {
                let item = guarantee_of([class, 0, sovereign_step]);
                let wrong = !sovereign_fits(class, sovereign_step);
                let refusal = if wrong { 3 } else { 0 };
                let mut record = deal(terms, &[], &[]);
                assert_eq!(add_guarantee(&mut record, item), refusal, "{item:?}");
                assert_eq!(record.guarantee_count, u64::from(!wrong));
                let refusals = refusals(&untested(terms, item));
                assert_eq!(refusals, [if wrong { 40 } else { 0 }; 4], "{item:?}");
                if WITH_SOVEREIGN.contains(&edition) {
                    let line = guarantee_line(&item, edition);
                    let found = four_numbers(&(header(edition) + &terms_line(&terms) + &line));
                    let place = if wrong { 3 } else { 1_000_000 };
                    assert_eq!(found[1..3], [refusal, place], "{item:?}");
                }
            }
        }
    }
}

#[test]
fn refusal_3_keeps_its_place_among_the_others() {
    let wrong = terms_of([1, 0, 1], 2);
    assert_eq!(opening(wrong), 3);
    assert_eq!(opening(Terms { kind: 4, ..wrong }), 2);
    let later = Terms {
        currency: 0,
        interval: 0,
        ..wrong
    };
    assert_eq!(opening(later), 3);
    let mut record = deal(TERMS, &[], &[]);
    let wrong = guarantee_of([2, 0, 7]);
    let unknown = Guarantee { class: 4, ..wrong };
    assert_eq!(add_guarantee(&mut record, unknown), 2);
    let later = Guarantee {
        currency: 0,
        original: 0,
        lawful: 2,
        ..wrong
    };
    assert_eq!(add_guarantee(&mut record, later), 3);
    assert_eq!(record, deal(TERMS, &[], &[]));
}

#[test]
fn an_unknown_edition_is_2_in_opening() {
    for edition in UNKNOWN_EDITIONS {
        let unknown = Terms { edition, ..TERMS };
        assert_eq!(opening(unknown), 2, "{edition}");
        let amount = 1_000_000_000_001;
        assert_eq!(opening(Terms { amount, ..unknown }), 1, "{edition}");
        assert_eq!(opening(Terms { step: 7, ..unknown }), 2, "{edition}");
        let later = Terms {
            sovereign_step: 7,
            currency: 0,
            interval: 0,
            ..unknown
        };
        assert_eq!(opening(later), 2, "{edition}");
    }
    for edition in EDITIONS {
        assert_eq!(opening(Terms { edition, ..TERMS }), 0, "{edition}");
    }
}

#[test]
fn an_unknown_edition_in_a_record_is_40() {
    for edition in UNKNOWN_EDITIONS {
        let mut record = deal(TERMS, &[CASH; 16], &[GUARANTEE; 16]);
        record.terms.edition = edition;
        assert_eq!(refusals(&record), [40; 4], "{edition}");
        let reply = report(&record);
        assert_eq!([reply.exposure, reply.rest, reply.weighted], [0; 3]);
        assert_eq!(reply.collateral, [Outcome::default(); 16]);
        assert_eq!(reply.guarantees, [(Outcome::default(), 0); 16]);
    }
}

#[test]
fn a_line_of_the_other_edition_is_11() {
    let [d1, d2] = [1, 2].map(|edition| terms_line(&Terms { edition, ..TERMS }));
    let [g1, g2] = [1, 2].map(|edition| guarantee_line(&GUARANTEE, edition));
    let c = collateral_line(&CASH);
    for (edition, d, g) in [(1, &d1, &g1), (2, &d2, &g2)] {
        let found = four_numbers(&[&header(edition), d, &c, g].map(String::as_str).concat());
        assert_eq!(found, [1, 0, 999_000, 998_000]);
    }
    for (edition, d, g, line) in [(1, &d2, &g1, 2), (2, &d1, &g2, 2), (1, &d1, &g2, 4)] {
        let found = four_numbers(&[&header(edition), d, &c, g].map(String::as_str).concat());
        assert_eq!(found, [1, 11, line, 0]);
    }
    let found = four_numbers(&[&header(2), &d2, &c, &g1].map(String::as_str).concat());
    assert_eq!(found, [1, 11, 4, 0]);
}

#[test]
fn deals_hold_the_edition_and_the_steps_that_were_sent() {
    let item = guarantee_of([2, 0, 5]);
    let terms = terms_of([3, 0, 4], 2);
    for edition in EDITIONS {
        let terms = Terms { edition, ..terms };
        let lines = terms_line(&terms) + &guarantee_line(&item, edition);
        let expected = match edition {
            1 => deal(terms_of([3, 0, 0], 1), &[], &[guarantee_of([2, 0, 0])]),
            _ => deal(terms, &[], &[item]),
        };
        let read = deals((header(edition) + &lines).as_bytes());
        assert_eq!(read, Ok(vec![DealRead::Accepted(Box::new(expected))]));
    }
}

/// Deals of each class that send no sovereign's step.
const HEADED_1: &str = "\
CRM 1
D 1000000 2 0 978 3 1 1800 1 0 0
G 400000 2 0 978 1800 1800 1 1 1
G 200000 1 2 978 1800 1800 1 1 1
D 1000000 3 0 978 3 1 1800 1 0 0
G 400000 2 0 978 1800 1800 1 1 1
G 300000 3 0 978 1800 1800 1 1 1
G 200000 1 0 978 1800 1800 1 1 1
D 1000000 4 0 978 3 1 1800 1 0 0
G 400000 2 0 978 1800 1800 1 1 1
D 1000000 2 2 978 3 1 1800 1 0 0
G 400000 2 0 978 1800 1800 1 1 1
";

/// The same deals with their sovereigns' steps.
const HEADED_2: &str = "\
CRM 2
D 1000000 2 0 6 978 3 1 1800 1 0 0
G 400000 2 0 4 978 1800 1800 1 1 1
G 200000 1 2 0 978 1800 1800 1 1 1
D 1000000 3 0 6 978 3 1 1800 1 0 0
G 400000 2 0 3 978 1800 1800 1 1 1
G 300000 3 0 1 978 1800 1800 1 1 1
G 200000 1 0 0 978 1800 1800 1 1 1
D 1000000 4 0 0 978 3 1 1800 1 0 0
G 400000 2 0 0 978 1800 1800 1 1 1
D 1000000 2 2 6 978 3 1 1800 1 0 0
G 400000 2 0 1 978 1800 1800 1 1 1
";

#[test]
fn figures_of_a_book_headed_1() {
    // Counterparties at 50, 100, 75 and 50; unrated banks provide at 50.
    let reports = "\
REPORT 2
1 EXPOSURE 1000000
1 GUARANTEE 1 GROUND 29 400000 0
1 GUARANTEE 2 VALUE 200000 0 0 0 200000
1 REST 800000
1 WEIGHTED 440000
2 EXPOSURE 1000000
2 GUARANTEE 1 VALUE 400000 0 0 0 400000
2 GUARANTEE 2 GROUND 28 300000 0
2 GUARANTEE 3 GROUND 29 200000 0
2 REST 600000
2 WEIGHTED 800000
3 EXPOSURE 1000000
3 GUARANTEE 1 VALUE 400000 0 0 0 400000
3 REST 600000
3 WEIGHTED 650000
4 EXPOSURE 1000000
4 GUARANTEE 1 GROUND 29 400000 0
4 REST 1000000
4 WEIGHTED 500000
";
    assert_eq!(printed_reports(&tabbed(HEADED_1)), tabbed(reports));
}

#[test]
fn figures_of_the_same_book_headed_2() {
    // Counterparties at 150, 150, 75 and 50; the unrated banks provide at 100,
    // 50, 100 (their sovereign is unrated) and 50.
    let reports = "\
REPORT 2
1 EXPOSURE 1000000
1 GUARANTEE 1 VALUE 400000 0 0 0 400000
1 GUARANTEE 2 VALUE 200000 0 0 0 200000
1 REST 400000
1 WEIGHTED 1040000
2 EXPOSURE 1000000
2 GUARANTEE 1 VALUE 400000 0 0 0 400000
2 GUARANTEE 2 GROUND 28 300000 0
2 GUARANTEE 3 VALUE 200000 0 0 0 200000
2 REST 400000
2 WEIGHTED 1000000
3 EXPOSURE 1000000
3 GUARANTEE 1 GROUND 29 400000 0
3 REST 1000000
3 WEIGHTED 750000
4 EXPOSURE 1000000
4 GUARANTEE 1 GROUND 29 400000 0
4 REST 1000000
4 WEIGHTED 500000
";
    assert_eq!(printed_reports(&tabbed(HEADED_2)), tabbed(reports));
    let results = "\
RESULT 1
1 0 1000000 1040000
2 0 1000000 1000000
3 0 1000000 750000
4 0 1000000 500000
";
    assert_eq!(printed(&tabbed(HEADED_2)), tabbed(results));
}

#[test]
fn the_floor_decides_the_order_of_cover() {
    // Unrated banks at 100 and 50 by their sovereigns, a rated one at 50.
    let items = [[2, 0, 5], [2, 0, 2], [2, 3, 6]].map(|party| Guarantee {
        amount: 60,
        ..guarantee_of(party)
    });
    let portions = |edition| {
        let terms = Terms {
            amount: 100,
            ..terms_of([3, 0, 6], edition)
        };
        let report = report(&deal(terms, &[], &items));
        let portions = [0, 1, 2].map(|place| report.guarantees[place].1);
        (portions, report.weighted)
    };
    assert_eq!(portions(1), ([60, 40, 0], 50));
    assert_eq!(portions(2), ([0, 60, 40], 50));
}

/// Every accepted party up to the class, and its weight in percent, with the
/// floor for the unrated of class 3 only where they are counterparties.
fn parties(last_class: u64, edition: u64) -> Vec<(Party, u64)> {
    let weight = |class, step, sovereign: u64| match (class, step, edition) {
        (2, 0, 2) => [100, 50, 50, 50, 100, 100, 150][sovereign as usize],
        (2, 0, 3) => 150,
        (3, 0, 2 | 3) if last_class == 4 => [100, 100, 100, 100, 100, 100, 150][sovereign as usize],
        _ => weight(class, step, edition),
    };
    let mut parties = Vec::new();
    for class in 1..=last_class {
        for step in 0..=if class == 4 { 0 } else { 6 } {
            for sovereign in (0..=6).filter(|&sovereign| sovereign_fits(class, sovereign)) {
                parties.push(([class, step, sovereign], weight(class, step, sovereign)));
            }
        }
    }
    parties
}

#[test]
fn every_pair_of_counterparty_and_provider() {
    for edition in EDITIONS {
        let providers = parties(3, edition);
        for (counterparty, weight) in parties(4, edition) {
            let terms = terms_of(counterparty, edition);
            for &(provider, provider_weight) in &providers {
                let expected = match provider {
                    [3, 0, _] => left_out(28, 1_000),
                    _ if provider_weight >= weight => left_out(29, 1_000),
                    _ => whole(1_000),
                };
                let portion = if expected == whole(1_000) { 1_000 } else { 0 };
                let rest = 1_000_000 - portion;
                let report = report(&deal(terms, &[], &[guarantee_of(provider)]));
                assert_eq!(report.guarantees[0], (expected, portion));
                assert_eq!(report.rest, rest);
                let hundredfold = rest * weight + portion * provider_weight;
                assert_eq!(report.weighted, hundredfold.div_ceil(100));
            }
        }
    }
}

/// The deal under the edition, with the step for every sovereign that its class
/// may send.
fn with_sovereigns(record: &Record, edition: u64, step: u64) -> Record {
    let mut changed = record.clone();
    changed.terms.edition = edition;
    let places = changed.guarantees.iter_mut();
    let providers = places.map(|item| {
        let item = shared(item);
        (item.class, &mut item.sovereign_step)
    });
    let terms = &mut changed.terms;
    for (class, place) in providers.chain([(terms.class, &mut terms.sovereign_step)]) {
        if [2, 3].contains(&class) {
            *place = step;
        }
    }
    changed
}

#[test]
fn edition_1_has_no_floor_whatever_step_a_record_holds() {
    let mut random = Random::new(31);
    for _ in 0..ROUNDS {
        let mut record = random.deal();
        record.terms.edition = 1;
        let expected = report(&record);
        for step in 0..=6 {
            assert_eq!(report(&with_sovereigns(&record, 1, step)), expected);
        }
    }
}

#[test]
fn sovereigns_at_steps_1_to_3_leave_the_answers_of_edition_1() {
    let mut random = Random::new(32);
    let mut changed = 0;
    for _ in 0..ROUNDS {
        let record = random.deal();
        let expected = report(&with_sovereigns(&record, 1, 0));
        for step in 1..=3 {
            assert_eq!(report(&with_sovereigns(&record, 2, step)), expected);
        }
        let unrated = report(&with_sovereigns(&record, 2, 0));
        changed += u64::from(unrated != expected);
        for step in 4..=5 {
            assert_eq!(report(&with_sovereigns(&record, 2, step)), unrated);
        }
    }
    assert!(changed > ROUNDS / 20, "{changed}");
}

#[test]
fn the_floor_never_lowers_the_weighted_amount() {
    let mut random = Random::new(33);
    let mut raised = 0;
    for _ in 0..ROUNDS {
        let mut record = random.deal();
        record.terms.edition = 1;
        let before = report(&record);
        record.terms.edition = 2;
        let now = report(&record);
        assert_eq!(now.exposure, before.exposure);
        assert_eq!(now.collateral, before.collateral);
        assert!(now.weighted >= before.weighted);
        raised += u64::from(now.weighted > before.weighted);
    }
    assert!(raised > ROUNDS / 40, "{raised}");
}

/// Makes the floor matter: the counterparty weighs most, its guarantees are
/// those of unrated banks.
fn lean_on_unrated_banks(record: &mut Record) {
    record.terms.edition = 2;
    record.terms.class = 3;
    record.terms.step = 6;
    for item in &mut record.guarantees[..record.guarantee_count as usize] {
        let item = shared(item);
        item.class = 2;
        item.step = 0;
    }
}

#[test]
fn a_better_sovereign_step_of_a_provider_never_raises_the_weighted_amount() {
    let mut random = Random::new(34);
    let mut lowered = 0;
    for _ in 0..ROUNDS {
        let mut record = random.deal();
        if random.chance(2) {
            lean_on_unrated_banks(&mut record);
        }
        let mut before = report(&record).weighted;
        for place in 0..record.guarantee_count as usize {
            let step = &mut shared(&mut record.guarantees[place]).sovereign_step;
            // A betterment is between rated steps.
            *step = random.within(1.min(*step), *step);
            let now = report(&record).weighted;
            assert!(now <= before, "{record:?}");
            lowered += u64::from(now < before);
            before = now;
        }
    }
    assert!(lowered > ROUNDS / 20, "{lowered}");
}

/// A book of edition 1 with deals of every class and step and random ones, sound
/// and spoilt, and the reports that this crate printed for it before L5.
const RECORDED_BOOK: &str = include_str!("recorded/before_l5.book");
const RECORDED_REPORTS: &str = include_str!("recorded/before_l5.reports");

#[test]
fn answers_recorded_before_are_kept() {
    assert_recorded(RECORDED_BOOK, RECORDED_REPORTS);
}

/// A line of edition 1 as edition 2 has it, with the step for its sovereign.
fn line_of_edition_2(line: &str, step: &str) -> String {
    let mut fields: Vec<&str> = line.split('\t').collect();
    if ["D", "G"].contains(&fields[0]) {
        let sent = if ["2", "3"].contains(&fields[2]) {
            step
        } else {
            "0"
        };
        fields.insert(4, sent);
    }
    fields.join("\t") + "\n"
}

#[test]
fn the_recorded_answers_are_those_of_edition_2_with_strong_sovereigns() {
    let lines = RECORDED_BOOK.lines().skip(1);
    let book = |step| {
        let lines = lines.clone().map(|line| line_of_edition_2(line, step));
        header(2) + &lines.collect::<String>()
    };
    for step in ["1", "2", "3"] {
        assert_recorded(&book(step), RECORDED_REPORTS);
    }
    for step in ["0", "4", "5", "6"] {
        assert_ne!(reports_in_form_1(&book(step)), RECORDED_REPORTS);
    }
}
