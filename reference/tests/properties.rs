//! What must hold of every deal and every book, on random ones.

mod common;

use common::*;
use reference::{
    add_collateral, add_guarantee, add_swap, answer_book, deals, open, printed, printed_reports,
    report, BookReply, Collateral, Cover, DealRead, Guarantee, Outcome, Record, Report, Swap,
    Terms,
};

const ROUNDS: u64 = 20_000;

#[test]
fn portions_and_rest_make_up_the_exposure() {
    let mut random = Random::new(1);
    for _ in 0..ROUNDS {
        let record = random.deal();
        let report = report(&record);
        let covered: u64 = report.guarantees.iter().map(|(_, portion)| portion).sum();
        assert_eq!(report.refusal, 0);
        assert_eq!(covered + report.rest, report.exposure);
        assert!(report.exposure <= record.terms.amount);
        for (outcome, portion) in report.guarantees {
            assert!(portion <= outcome.value());
        }
    }
}

#[test]
fn no_value_exceeds_its_amount_and_grounds_are_known() {
    let mut random = Random::new(2);
    for _ in 0..ROUNDS {
        let record = random.deal();
        let report = report(&record);
        for (item, outcome) in record.collateral.iter().zip(report.collateral) {
            match outcome {
                Outcome::Valued(valuation) => assert!(valuation.value <= item.amount),
                Outcome::LeftOut { ground, .. } => assert!((21..=26).contains(&ground)),
            }
        }
        for (item, (outcome, _)) in record.guarantees.iter().zip(report.guarantees) {
            match outcome {
                Outcome::Valued(valuation) => {
                    assert!(valuation.value <= item.guarantee().amount);
                }
                Outcome::LeftOut { ground, .. } => {
                    assert!([21, 23, 25, 26, 27, 28, 29].contains(&ground));
                }
            }
        }
    }
}

#[test]
fn places_past_a_count_hold_zeros_and_have_no_effect() {
    let mut random = Random::new(3);
    for _ in 0..ROUNDS {
        let record = random.deal();
        let first = report(&record);
        let mut filled = record.clone();
        for place in &mut filled.collateral[record.collateral_count as usize..] {
            *place = Collateral::from([random.any(); 11]);
        }
        for place in &mut filled.guarantees[record.guarantee_count as usize..] {
            *place = if random.chance(2) {
                Guarantee::from([random.any(); 10]).into()
            } else {
                Swap::from([random.any(); 11]).into()
            };
        }
        assert_eq!(report(&filled), first);
        for outcome in &first.collateral[record.collateral_count as usize..] {
            assert_eq!(*outcome, Outcome::default());
        }
        for place in &first.guarantees[record.guarantee_count as usize..] {
            assert_eq!(*place, (Outcome::default(), 0));
        }
    }
}

/// Covers by picking the least weight left, again and again.
fn cover_by_picking(record: &Record, report: &Report) -> ([u64; 16], u64) {
    let terms = &record.terms;
    let mut portions = [0; 16];
    let mut rest = report.exposure;
    let mut open: Vec<usize> = (0..16)
        .filter(|&place| report.guarantees[place].0.value() > 0)
        .collect();
    let weight_at = |place: usize| {
        let item = record.guarantees[place].guarantee();
        let party = [item.class, item.step, item.sovereign_step];
        weight_with_floor(party, &[2], terms.edition)
    };
    while let Some(&next) = open.iter().min_by_key(|&&place| (weight_at(place), place)) {
        open.retain(|&place| place != next);
        portions[next] = rest.min(report.guarantees[next].0.value());
        rest -= portions[next];
    }
    let weighted: u64 = (0..16)
        .filter(|&place| portions[place] > 0)
        .map(|place| portions[place] * weight_at(place))
        .sum();
    let party = [terms.class, terms.step, terms.sovereign_step];
    let counterparty = weight_with_floor(party, &[2, 3], terms.edition);
    (portions, (weighted + rest * counterparty).div_ceil(100))
}

#[test]
fn cover_is_that_of_picking_the_least_weight() {
    let mut random = Random::new(4);
    for _ in 0..ROUNDS {
        let record = random.deal();
        let report = report(&record);
        let (portions, weighted) = cover_by_picking(&record, &report);
        assert_eq!(report.guarantees.map(|(_, portion)| portion), portions);
        assert_eq!(report.weighted, weighted);
    }
}

#[test]
fn protection_and_more_of_it_never_raise_the_weighted_amount() {
    let mut random = Random::new(5);
    for _ in 0..ROUNDS {
        let mut record = random.deal();
        let bare = report(&deal(record.terms, &[], &[]));
        let before = report(&record);
        assert!(before.weighted <= bare.weighted);
        add_collateral(&mut record, random.collateral());
        add_cover(&mut record, random.cover());
        record.terms.interval = random.within(1, record.terms.interval);
        assert!(report(&record).weighted <= before.weighted);
    }
}

#[test]
fn refused_adds_leave_the_record_unchanged() {
    let mut random = Random::new(6);
    let mut refused = 0;
    for _ in 0..ROUNDS {
        let before = random.deal();
        let mut record = before.clone();
        let mut fields = collateral_fields(&random.collateral());
        random.spoil(&mut fields);
        if add_collateral(&mut record, fields.into()) != 0 {
            assert_eq!(record, before);
            refused += 1;
        }
        let mut record = before.clone();
        let mut fields = guarantee_fields(&random.guarantee());
        random.spoil(&mut fields);
        if add_guarantee(&mut record, fields.into()) != 0 {
            assert_eq!(record, before);
            refused += 1;
        }
        let mut record = before.clone();
        let mut fields = swap_fields(&random.swap());
        random.spoil(&mut fields);
        if add_swap(&mut record, fields.into()) != 0 {
            assert_eq!(record, before);
            refused += 1;
        }
    }
    assert!(refused > ROUNDS / 4);
}

#[test]
fn values_are_those_of_the_steps() {
    let mut random = Random::new(11);
    for _ in 0..ROUNDS {
        let record = random.deal();
        let report = report(&record);
        let terms = &record.terms;
        let mut total = 0;
        for (item, outcome) in record.collateral.iter().zip(report.collateral) {
            if let (Outcome::Valued(valuation), 1..) = (outcome, item.goods) {
                let [.., value] = steps_of_collateral(terms, item);
                assert_eq!(valuation.value, value);
                total += value;
            }
        }
        let lent = [terms.lent_goods, terms.lent_step, terms.lent_life, 0];
        let haircut = scaled_haircut(lent_haircut(lent, terms.edition), days_of(terms));
        let raised = (terms.amount * (1_000_000 + haircut)).div_ceil(1_000_000);
        let exposure = raised.saturating_sub(total).min(terms.amount);
        assert_eq!(report.exposure, exposure);
        for (item, (outcome, _)) in record.guarantees.iter().zip(report.guarantees) {
            if let (Outcome::Valued(valuation), 1..) = (outcome, item.guarantee().class) {
                let [.., value] = steps_of_cover(terms, item);
                assert_eq!(valuation.value, value);
            }
        }
    }
}

/// Any number, small ones and sound ones among them.
fn wild(random: &mut Random) -> u64 {
    match random.within(0, 4) {
        0 => random.any(),
        1 => random.within(0, 20),
        2 => random.pick(&[0, 1, 16, 17, 978, u64::MAX, 1 << 32, 1 << 63]),
        3 => random.pick(&[35_999, 36_000, 36_001, 99_999, 100_000, 100_001]),
        _ => random.days(),
    }
}

fn with_restructuring(swap: Swap, restructuring: u64) -> Cover {
    Cover::Swap(Swap {
        restructuring,
        ..swap
    })
}

#[test]
fn wild_records_never_panic_and_answer_40_alike() {
    let mut random = Random::new(7);
    let mut accepted = 0;
    for _ in 0..ROUNDS {
        let mut record = random.deal();
        for _ in 0..random.within(0, 3) {
            let number = wild(&mut random);
            let place = random.within(0, 15) as usize;
            match random.within(0, 10) {
                0 => record.collateral_count = number,
                1 => record.guarantee_count = number,
                2 => record.terms.amount = number,
                3 => record.terms.interval = number,
                4 => record.collateral[place].residual = number,
                5 => shared(&mut record.guarantees[place]).original = number,
                6 => record.terms.edition = number,
                7 => record.terms.sovereign_step = number,
                8 => shared(&mut record.guarantees[place]).sovereign_step = number,
                9 => record.guarantees[place] = with_restructuring(random.swap(), number),
                _ => record.terms.lent_goods = number,
            }
        }
        let reply = report(&record);
        let before = record.clone();
        let added = add_collateral(&mut record, CASH);
        assert_eq!(reply.refusal == 40, added == 40);
        if reply.refusal == 40 {
            assert_eq!(record, before);
            assert_eq!(reply.weighted + reply.exposure + reply.rest, 0);
        } else {
            accepted += 1;
        }
    }
    assert!(accepted > ROUNDS / 20);
}

/// A line of a random book of the edition: mostly sound, at times spoilt or cut.
fn random_line(random: &mut Random, edition: u64, first: bool) -> String {
    let letter = if first { 0 } else { random.within(0, 7) };
    let mut text = match letter {
        0 => {
            let terms = random.terms();
            let mut fields = sent_terms(&Terms { edition, ..terms });
            if random.chance(8) {
                random.spoil(&mut fields);
            }
            line('D', &fields)
        }
        1..=3 => {
            let mut fields = collateral_fields(&random.collateral());
            if random.chance(20) {
                random.spoil(&mut fields);
            }
            line('C', &fields)
        }
        4..=5 => {
            let mut fields = sent_swap(&random.swap(), edition);
            if random.chance(20) {
                random.spoil(&mut fields);
            }
            line('S', &fields)
        }
        _ => {
            let mut fields = sent_guarantee(&random.guarantee(), edition);
            if random.chance(20) {
                random.spoil(&mut fields);
            }
            line('G', &fields)
        }
    };
    if random.chance(30) {
        let place = random.within(2, text.len() as u64 - 1) as usize;
        match random.within(0, 2) {
            0 => text.insert(place, '0'),
            1 => text.insert(place, '\t'),
            _ => {
                text.remove(place);
            }
        }
    }
    text
}

fn random_book(random: &mut Random) -> Vec<u8> {
    let edition = random.edition();
    let lines = random.within(0, 60);
    let body: String = (0..lines)
        .map(|place| random_line(random, edition, place == 0))
        .collect();
    (header(edition) + &body).into_bytes()
}

/// Reads a field the plain way.
fn parsed(field: &str) -> Option<u64> {
    let number: u64 = field.parse().ok()?;
    (field.len() <= 13 && field == number.to_string()).then_some(number)
}

fn fields(line: &str, letter: &str) -> Option<Vec<u64>> {
    let fields: Vec<&str> = line.strip_suffix('\n')?.split('\t').collect();
    let numbers: Option<Vec<u64>> = fields[1..].iter().map(|field| parsed(field)).collect();
    (fields[0] == letter).then_some(())?;
    numbers
}

/// The numbers of a D, G or S line, those of edition 1 with 0 behind the step.
fn party_fields(line: &str, letter: &str, edition: u64) -> Option<Vec<u64>> {
    let mut numbers = fields(line, letter)?;
    if edition == 1 && numbers.len() > 3 {
        numbers.insert(3, 0);
    }
    Some(numbers)
}

fn open_line(line: &str, edition: u64) -> Result<Record, u64> {
    let mut numbers = party_fields(line, "D", edition).ok_or(11_u64)?;
    numbers.push(edition);
    let numbers: [u64; 12] = numbers.try_into().map_err(|_| 11_u64)?;
    open(numbers.into())
}

fn add_line(record: &mut Record, line: &str) -> u64 {
    let collateral = fields(line, "C").and_then(|numbers| <[u64; 11]>::try_from(numbers).ok());
    let guarantee = party_fields(line, "G", record.terms.edition)
        .and_then(|numbers| <[u64; 10]>::try_from(numbers).ok());
    let swap = party_fields(line, "S", record.terms.edition)
        .and_then(|numbers| <[u64; 11]>::try_from(numbers).ok());
    match (collateral, guarantee, swap) {
        (Some(numbers), _, _) => add_collateral(record, numbers.into()),
        (_, Some(numbers), _) => add_guarantee(record, numbers.into()),
        (_, _, Some(numbers)) => add_swap(record, numbers.into()),
        _ => 11,
    }
}

/// Goes line by line through opening, adding and reporting.
fn line_by_line(book: &[u8]) -> Vec<u64> {
    let text = std::str::from_utf8(book).expect("plain text");
    let edition = u64::from(book[4] - b'0');
    let mut found: Vec<Result<Record, (u64, u64)>> = Vec::new();
    for (number, line) in (1..).zip(text.split_inclusive('\n')).skip(1) {
        if line.starts_with("D\t") {
            found.push(open_line(line, edition).map_err(|refusal| (refusal, number)));
        } else if let Some(deal @ Ok(_)) = found.last_mut() {
            let refusal = deal.as_mut().map_or(0, |record| add_line(record, line));
            if refusal != 0 {
                *deal = Err((refusal, number));
            }
        }
    }
    (1..)
        .zip(found)
        .flat_map(|(serial, deal)| match deal {
            Ok(record) => {
                let report = report(&record);
                [serial, report.refusal, report.exposure, report.weighted]
            }
            Err((refusal, line)) => [serial, refusal, line, 0],
        })
        .collect()
}

#[test]
fn answering_a_book_is_going_through_it_line_by_line() {
    let mut random = Random::new(8);
    let (mut accepted, mut refused) = (0, 0);
    for _ in 0..3_000 {
        let book = random_book(&mut random);
        let expected = line_by_line(&book);
        let mut results = vec![77; expected.len() + 3];
        let reply = answer_book(&book, &mut results);
        let count = expected.len() / 4;
        assert_eq!(
            reply,
            BookReply {
                refusal: 0,
                deals: count
            }
        );
        assert_eq!(results[..4 * count], expected);
        assert_eq!(results[4 * count..], [77; 3]);
        accepted += expected.chunks(4).filter(|four| four[1] == 0).count();
        refused += expected.chunks(4).filter(|four| four[1] != 0).count();
    }
    assert!(accepted > 3_000 && refused > 3_000, "{accepted} {refused}");
}

#[test]
fn deals_and_answers_agree() {
    let mut random = Random::new(9);
    for _ in 0..500 {
        let book = random_book(&mut random);
        let mut results = vec![0; 400];
        let count = answer_book(&book, &mut results).deals;
        let read = deals(&book).expect("accepted book");
        assert_eq!(read.len(), count);
        for (deal, four) in read.iter().zip(results.chunks(4)) {
            match deal {
                DealRead::Accepted(record) => {
                    let report = report(record);
                    assert_eq!([0, report.exposure, report.weighted], four[1..]);
                }
                DealRead::Refused { refusal, line } => {
                    assert_eq!([*refusal, *line, 0], four[1..]);
                }
            }
        }
    }
}

#[test]
fn any_bytes_are_answered() {
    let mut random = Random::new(10);
    let alphabet = b"DCGS\t\t\t\n\n0123456789\r \0\xff";
    for _ in 0..5_000 {
        let mut book = format!("{}D\t", header(random.edition())).into_bytes();
        book.truncate(random.pick(&[0, 6, 8, 8, 8]) as usize);
        for _ in 0..random.within(0, 300) {
            book.push(alphabet[random.within(0, alphabet.len() as u64 - 1) as usize]);
        }
        let mut results = vec![5; random.within(0, 40) as usize];
        let reply = answer_book(&book, &mut results);
        assert!(4 * reply.deals <= results.len());
        assert!(results[4 * reply.deals..].iter().all(|&number| number == 5));
        for text in [printed(&book), printed_reports(&book)] {
            assert_eq!(text.last(), Some(&b'\n'));
        }
    }
}
