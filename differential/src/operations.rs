//! Opening and adding on lists of numbers through both implementations, every
//! number of the lists compared.

use hadlephoga::{Record, ITEMS, RECORD_LENGTH};

use crate::compare::{self, around, differ, Difference};
use crate::days;
use crate::editions;
use crate::full_list;
use crate::heading::EDITION;
use crate::held::{self, GUARANTEE, INSTRUMENTS};
use crate::lent::Lent;
use crate::line::Line;
use crate::random::Random;
use crate::records::{self, changed, EDGES};
use crate::restructuring;
use crate::sides::{reference_add, reference_open, reference_report};
use crate::sovereign;
use crate::tally::Tally;
use crate::values;

/// The refusal of an item of another length.
const MALFORMED: u64 = 11;

/// A call of the library on a record of numbers and an item of numbers.
type Add = fn(&mut [u64], &[u64]) -> u64;

/// One of each, on random and on damaged numbers.
pub fn operations(random: &mut Random, tally: &mut Tally) -> Result<(), Difference> {
    opening(random, tally)?;
    let item = collateral(random);
    let (_, refusal) = adding(
        random,
        "adding collateral",
        Line::new(b'C', &item),
        [hadlephoga::add_collateral_numbers, add_collateral],
        tally,
    )?;
    tally.answers.added_collateral.meet(&[refusal]);
    let item = guarantee(random);
    let (edition, refusal) = adding(
        random,
        "adding a guarantee",
        Line::new(b'G', &item),
        [hadlephoga::add_guarantee_numbers, add_guarantee],
        tally,
    )?;
    tally.answers.added_guarantees.meet(&[refusal]);
    let sovereigns = &mut tally.sovereigns;
    sovereigns.meet_numbers(b'G', &item, edition, refusal);
    let item = swap(random);
    let (edition, refusal) = adding(
        random,
        "adding a swap",
        Line::new(b'S', &item),
        [hadlephoga::add_swap_numbers, add_swap],
        tally,
    )?;
    tally.answers.added_swaps.meet(&[refusal]);
    let sovereigns = &mut tally.sovereigns;
    sovereigns.meet_numbers(b'S', &item, edition, refusal);
    let restructuring = &mut tally.restructuring;
    restructuring.meet_added(&item, edition, refusal);
    Ok(())
}

fn add_collateral(record: &mut [u64], item: &[u64]) -> u64 {
    reference_add(reference::add_collateral, record, item)
}

fn add_guarantee(record: &mut [u64], item: &[u64]) -> u64 {
    reference_add(reference::add_guarantee, record, item)
}

fn add_swap(record: &mut [u64], item: &[u64]) -> u64 {
    reference_add(reference::add_swap, record, item)
}

fn opening(random: &mut Random, tally: &mut Tally) -> Result<(), Difference> {
    let edition = values::edition(random);
    let terms = values::terms(random, edition).to_numbers();
    let terms = damaged(random, b'D', terms);
    let room = match random.percent(80) {
        true => RECORD_LENGTH + random.index(3),
        false => random.pick(&around(RECORD_LENGTH)),
    };
    let (mut proved, mut reference) = (Lent::new(room), Lent::new(room));
    let proved_refusal = hadlephoga::open_numbers(&terms, proved.list());
    let reference_refusal = reference_open(&terms, reference.list());
    tally.counts.numbers += 1 + room as u64;
    if proved_refusal != reference_refusal || proved.numbers != reference.numbers {
        return Err(differ(
            "opening",
            format!("terms {terms:?}, a list of {room}"),
            (proved_refusal, proved.list()),
            (reference_refusal, reference.list()),
        ));
    }
    tally.answers.opened.meet(&[proved_refusal]);
    days::meet(&mut tally.days_on_numbers, b'D', &terms, proved_refusal);
    tally.editions.meet_opening(&terms, proved_refusal);
    let edition = terms.get(EDITION).copied().unwrap_or(0);
    let sovereigns = &mut tally.sovereigns;
    sovereigns.meet_numbers(b'D', &terms, edition, proved_refusal);
    Ok(())
}

/// Both answers to adding what a line sends, by the library and by the second
/// implementation: the refusal, with the edition of the record. What an item is added to
/// is reported too.
fn adding(
    random: &mut Random,
    about: &str,
    line: Line,
    [proved_add, reference_add]: [Add; 2],
    tally: &mut Tally,
) -> Result<(u64, u64), Difference> {
    let item = &line.fields;
    let numbers = record(random);
    let (mut proved, mut reference) = (Lent::new(numbers.len()), Lent::new(numbers.len()));
    proved.list().copy_from_slice(&numbers);
    reference.list().copy_from_slice(&numbers);
    let proved_refusal = proved_add(proved.list(), item);
    let reference_refusal = reference_add(reference.list(), item);
    tally.counts.numbers += 1 + numbers.len() as u64;
    if proved_refusal != reference_refusal || proved.numbers != reference.numbers {
        return Err(differ(
            about,
            format!("record {numbers:?}\nitem {item:?}"),
            (proved_refusal, proved.list()),
            (reference_refusal, reference.list()),
        ));
    }
    if let (0, Some(left)) = (proved_refusal, proved.list().first_chunk()) {
        compare::report(random, left, tally)?;
    }
    meet_adding(&line, &numbers, proved_refusal, tally);
    // In a record of another length nothing is the edition; it is refused.
    let edition = numbers.get(EDITION).copied().unwrap_or(0);
    Ok((edition, proved_refusal))
}

/// Counts what was to be added to a record, and was answered so.
fn meet_adding(line: &Line, numbers: &[u64], refusal: u64, tally: &mut Tally) {
    let Line { letter, fields } = line;
    days::meet(&mut tally.days_on_numbers, *letter, fields, refusal);
    if let Some(numbers) = numbers.first_chunk().filter(|of| of.len() == numbers.len()) {
        let record = Record::from_numbers(numbers);
        let restructuring = &mut tally.restructuring;
        restructuring.meet_adding_to(*letter, &record, refusal);
        full_list::meet_added(&mut tally.full_lists, *letter, &record, refusal);
        if refusal == MALFORMED {
            let (of_record, _) = reference_report(numbers);
            let answers = &mut tally.answers;
            answers.meet_length(*letter, fields.len(), of_record);
        }
    }
}

/// A record of any numbers, now and then of another length or with full lists.
fn record(random: &mut Random) -> Vec<u64> {
    let mut numbers = records::record(random);
    if random.percent(10) {
        let mut record = Record::from_numbers(&numbers);
        let edition = values::edition(random);
        let terms = values::terms(random, edition);
        record.terms = terms;
        record.collateral = std::array::from_fn(|_| values::collateral(random, &terms, 16));
        record.guarantees = std::array::from_fn(|_| values::held(random, &terms, 16));
        // The places are shared: now and then all of them are of one sort.
        if random.percent(50) {
            let instrument = random.pick(&INSTRUMENTS);
            (record.guarantees.iter_mut()).for_each(|item| item.instrument = instrument);
        }
        record.collateral_count = ITEMS as u64 - random.below(2);
        record.guarantee_count = ITEMS as u64 - random.below(2);
        numbers = record.to_numbers();
    }
    let mut numbers = numbers.to_vec();
    if random.percent(3) {
        numbers.resize(random.pick(&around(RECORD_LENGTH)), 1);
    }
    numbers
}

fn collateral(random: &mut Random) -> Vec<u64> {
    let terms = values::terms(random, 1);
    let item = values::collateral(random, &terms, 1).to_numbers();
    damaged(random, b'C', item)
}

fn guarantee(random: &mut Random) -> Vec<u64> {
    let terms = values::terms(random, 1);
    let item = values::guarantee(random, &terms, 1).to_numbers();
    damaged(random, b'G', item)
}

fn swap(random: &mut Random) -> Vec<u64> {
    let terms = values::terms(random, 1);
    let item = values::swap(random, &terms, 1).to_numbers();
    damaged(random, b'S', item)
}

/// As they are, with days at an edge, with a wrong sovereign's step, with an
/// unknown edition or a wrong restructuring condition, outside their ranges, any
/// numbers, or too many or too few.
fn damaged<const WIDTH: usize>(random: &mut Random, letter: u8, fields: [u64; WIDTH]) -> Vec<u64> {
    let mut line = Line::new(letter, &fields);
    match random.below(25) {
        0..=6 => (),
        7..=10 => days::put_at_edge(random, &mut line),
        11..=13 => sovereign::put_wrong(random, &mut line),
        14 if letter == b'D' => line.fields[EDITION] = editions::unknown(random),
        14..=17 if letter == b'S' => restructuring::put_wrong_number(random, &mut line),
        14..=23 => line.fields = changed(random, letter, &fields).to_vec(),
        _ => line.fields = (0..WIDTH).map(|_| random.pick(EDGES)).collect(),
    }
    if random.percent(5) {
        line.fields.resize(random.pick(&around(WIDTH)), 1);
    }
    line.fields
}

/// An accepted deal, built by the library's opening and adding from nothing, is
/// its record.
pub fn built(record: &Record, tally: &mut Tally) -> Result<(), Difference> {
    let mut numbers = [u64::MAX; RECORD_LENGTH];
    let mut refusals = Vec::new();
    let edition = record.terms.edition;
    let mut answered = |letter, fields: &[u64], refusal| {
        days::meet(&mut tally.days_on_numbers, letter, fields, refusal);
        if letter != b'C' {
            let sovereigns = &mut tally.sovereigns;
            sovereigns.meet_numbers(letter, fields, edition, refusal);
        }
        refusals.push(refusal);
    };
    let terms = record.terms.to_numbers();
    let refusal = hadlephoga::open_numbers(&terms, &mut numbers);
    answered(b'D', &terms, refusal);
    for item in &record.collateral[..record.collateral_count as usize] {
        let item = item.to_numbers();
        let refusal = hadlephoga::add_collateral_numbers(&mut numbers, &item);
        answered(b'C', &item, refusal);
    }
    for item in &record.guarantees[..record.guarantee_count as usize] {
        let Line { letter, fields } = held::line(item);
        let refusal = match item.instrument {
            GUARANTEE => hadlephoga::add_guarantee_numbers(&mut numbers, &fields),
            _ => hadlephoga::add_swap_numbers(&mut numbers, &fields),
        };
        answered(letter, &fields, refusal);
    }
    tally.counts.numbers += (refusals.len() + RECORD_LENGTH) as u64;
    let expected = record.to_numbers();
    if refusals.iter().any(|refusal| *refusal != 0) || numbers != expected {
        return Err(differ(
            "building a deal by opening and adding",
            format!("record {expected:?}"),
            (refusals, numbers),
            expected,
        ));
    }
    Ok(())
}

#[cfg(test)]
mod tests {
    use super::*;

    #[test]
    fn every_answer_is_met() {
        let mut tally = Tally::new();
        for number in 0..4000 {
            let random = &mut Random::new(5, number);
            assert!(operations(random, &mut tally).is_ok());
        }
        for cells in [
            &tally.answers.opened,
            &tally.answers.added_collateral,
            &tally.answers.added_guarantees,
            &tally.answers.added_swaps,
            &tally.answers.added_lengths,
            &tally.days_on_numbers,
            tally.editions.families()[0],
        ] {
            assert_eq!(cells.met(), cells.all(), "{}", cells.title);
            assert_eq!(cells.unlisted().count(), 0);
        }
    }
}
