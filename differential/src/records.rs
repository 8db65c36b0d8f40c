//! Random records as no book gives them: any numbers in any place.

use hadlephoga::{Collateral, HeldGuarantee, Record, Terms, ITEMS, RECORD_LENGTH};

use crate::deal;
use crate::editions;
use crate::held::{self, held};
use crate::line::Line;
use crate::losing::lose;
use crate::outside::put_outside;
use crate::random::Random;
use crate::restructuring;
use crate::sovereign::{put_wrong, right_steps};
use crate::values;

pub const EDGES: &[u64] = &[
    0,
    1,
    2,
    3,
    4,
    5,
    6,
    7,
    9,
    10,
    16,
    17,
    90,
    91,
    250,
    251,
    360,
    361,
    999,
    1000,
    1800,
    values::EARLIER_DAYS_LIMIT - 1,
    values::EARLIER_DAYS_LIMIT,
    values::EARLIER_DAYS_LIMIT + 1,
    1 << 16,
    values::DAYS_LIMIT - 1,
    values::DAYS_LIMIT,
    values::DAYS_LIMIT + 1,
    values::AMOUNT_LIMIT,
    values::AMOUNT_LIMIT + 1,
    1 << 32,
    1 << 63,
    u64::MAX - 1,
    u64::MAX,
];
const COUNTS: &[u64] = &[
    16,
    17,
    18,
    19,
    20,
    255,
    256,
    257,
    1 << 16,
    1 << 32,
    (1 << 32) + 1,
    1 << 63,
    u64::MAX - 15,
    u64::MAX,
];

pub fn record(random: &mut Random) -> [u64; RECORD_LENGTH] {
    match random.below(27) {
        0..=6 => accepted(random).to_numbers(),
        7 | 8 => losing(random).to_numbers(),
        9..=13 => outside(random).to_numbers(),
        14..=16 => counts(random).to_numbers(),
        17 => {
            let mut numbers = accepted(random).to_numbers();
            numbers[random.index(RECORD_LENGTH)] = random.pick(EDGES);
            numbers
        }
        18 => std::array::from_fn(|_| random.pick(EDGES)),
        19..=21 => wrong_sovereign(random).to_numbers(),
        22 => unknown_edition(random).to_numbers(),
        23..=25 => unknown_instrument(random).to_numbers(),
        _ => match random.below(4) {
            0 => [0; RECORD_LENGTH],
            1 => [1; RECORD_LENGTH],
            2 => [u64::MAX; RECORD_LENGTH],
            _ => std::array::from_fn(|_| random.number()),
        },
    }
}

/// An accepted deal, with garbage in the places past its counts.
fn accepted(random: &mut Random) -> Record {
    let edition = values::edition(random);
    let terms = values::terms(random, edition);
    let (collateral, guarantees) = (values::list_length(random), values::list_length(random));
    let mut record = Record::new(
        terms,
        &Vec::from_iter((0..collateral).map(|_| values::collateral(random, &terms, collateral))),
        &Vec::from_iter((0..guarantees).map(|_| values::held(random, &terms, guarantees))),
    );
    fill_past_counts(random, &mut record);
    record
}

/// The same whose items lose in every way or are left out.
fn losing(random: &mut Random) -> Record {
    let edition = values::edition(random);
    let mut lines = deal::deal(random, edition);
    lose(random, &mut lines);
    let mut record = deal::record(&lines);
    fill_past_counts(random, &mut record);
    record
}

/// Puts garbage into every place past a count, or items that could be counted,
/// or guarantees that could be but for their sovereign's step or their instrument.
pub fn fill_past_counts(random: &mut Random, record: &mut Record) {
    let terms = record.terms;
    let sort = random.below(6);
    let number = |random: &mut Random| match sort {
        0 => u64::MAX,
        1 => random.pick(EDGES),
        _ => random.number(),
    };
    for place in past(record.collateral_count) {
        record.collateral[place] = match sort {
            3..=5 => values::collateral(random, &terms, 1),
            _ => Collateral::from_numbers(&std::array::from_fn(|_| number(random))),
        };
    }
    for place in past(record.guarantee_count) {
        record.guarantees[place] = match sort {
            3 => values::held(random, &terms, 1),
            4 => {
                let item = values::held(random, &terms, 1);
                wrongly_provided(random, &item)
            }
            5 => HeldGuarantee {
                instrument: restructuring::unknown(random),
                ..values::held(random, &terms, 1)
            },
            _ => HeldGuarantee::from_numbers(&std::array::from_fn(|_| number(random))),
        };
    }
}

/// Gives the parties of an accepted record any sovereigns that fit their classes.
pub fn change_sovereigns(random: &mut Random, record: &mut Record) {
    let counted = record.guarantee_count as usize;
    let providers = record.guarantees[..counted].iter_mut();
    let providers = providers.map(|item| (item.class, &mut item.sovereign_step));
    let terms = &mut record.terms;
    for (class, step) in providers.chain([(terms.class, &mut terms.sovereign_step)]) {
        let steps = right_steps(class);
        *step = random.between(*steps.start(), *steps.end());
    }
}

/// The record with zeros in the places past its counts.
pub fn without_garbage(mut record: Record) -> Record {
    record.collateral[past(record.collateral_count)].fill(Collateral::default());
    record.guarantees[past(record.guarantee_count)].fill(HeldGuarantee::default());
    record
}

fn past(count: u64) -> std::ops::Range<usize> {
    count.min(ITEMS as u64) as usize..ITEMS
}

/// A field of the deal or of a counted item outside its range.
fn outside(random: &mut Random) -> Record {
    let mut record = accepted(random);
    let counted = [record.collateral_count, record.guarantee_count].map(|count| count as usize);
    match random.below(3) {
        1 if counted[0] > 0 => {
            let item = &mut record.collateral[random.index(counted[0])];
            let fields = changed(random, b'C', &item.to_numbers());
            *item = Collateral::from_numbers(&fields);
        }
        2 if counted[1] > 0 => {
            let item = &mut record.guarantees[random.index(counted[1])];
            let mut line = held::line(item);
            change(random, &mut line);
            *item = held(&line);
        }
        _ => {
            let fields = changed(random, b'D', &record.terms.to_numbers());
            record.terms = Terms::from_numbers(&fields);
        }
    }
    record
}

/// The guarantee or swap with a wrong sovereign's step.
fn wrongly_provided(random: &mut Random, item: &HeldGuarantee) -> HeldGuarantee {
    let mut line = held::line(item);
    put_wrong(random, &mut line);
    held(&line)
}

/// With an unknown instrument in a counted place, if one is counted.
fn unknown_instrument(random: &mut Random) -> Record {
    let mut record = accepted(random);
    let counted = record.guarantee_count as usize;
    if counted > 0 {
        let item = &mut record.guarantees[random.index(counted)];
        item.instrument = restructuring::unknown(random);
    }
    record
}

/// Wrong for the sovereign's step of the counterparty or of a counted provider.
fn wrong_sovereign(random: &mut Random) -> Record {
    let mut record = accepted(random);
    let counted = record.guarantee_count as usize;
    if counted > 0 && random.percent(65) {
        let item = &mut record.guarantees[random.index(counted)];
        *item = wrongly_provided(random, item);
    } else {
        let mut line = Line::new(b'D', &record.terms.to_numbers());
        put_wrong(random, &mut line);
        record.terms = Terms::from_numbers(&std::array::from_fn(|place| line.fields[place]));
    }
    record
}

fn unknown_edition(random: &mut Random) -> Record {
    let mut record = accepted(random);
    record.terms.edition = editions::unknown(random);
    record
}

/// Fields of a line with one or more of them outside their range.
pub fn changed<const LENGTH: usize>(
    random: &mut Random,
    letter: u8,
    fields: &[u64; LENGTH],
) -> [u64; LENGTH] {
    let mut line = Line::new(letter, fields);
    change(random, &mut line);
    std::array::from_fn(|place| line.fields[place])
}

fn change(random: &mut Random, line: &mut Line) {
    match random.percent(30) {
        true => {
            let place = random.index(line.fields.len());
            line.fields[place] = random.pick(EDGES);
        }
        false => put_outside(random, line),
    }
}

/// Counts that need not agree with the lists, whose places are all filled.
fn counts(random: &mut Random) -> Record {
    let mut record = accepted(random);
    let terms = record.terms;
    record.collateral = std::array::from_fn(|_| values::collateral(random, &terms, 4));
    record.guarantees = std::array::from_fn(|_| values::held(random, &terms, 4));
    let mut count = || match random.percent(40) {
        true => random.pick(COUNTS),
        false => random.below(21),
    };
    record.collateral_count = count();
    record.guarantee_count = count();
    record
}

#[cfg(test)]
mod tests {
    use super::*;

    #[test]
    fn many_are_accepted_and_many_are_not() {
        let refused = (0..1000)
            .filter(|number| {
                let record = record(&mut Random::new(2, *number));
                hadlephoga::report(&Record::from_numbers(&record)).is_err()
            })
            .count();
        assert!((300..700).contains(&refused), "{refused}");
    }

    #[test]
    fn changed_sovereigns_are_accepted_and_wrong_ones_are_not() {
        for number in 0..500 {
            let random = &mut Random::new(43, number);
            let mut record = accepted(random);
            change_sovereigns(random, &mut record);
            assert!(hadlephoga::report(&record).is_ok());
            assert!(hadlephoga::report(&wrong_sovereign(random)).is_err());
            assert!(hadlephoga::report(&unknown_edition(random)).is_err());
            let unknown = unknown_instrument(random);
            let counted = unknown.guarantee_count > 0;
            assert_eq!(hadlephoga::report(&unknown).is_err(), counted);
        }
    }
}
