//! Records of accepted deals with one item of collateral in two: cash that may be split changes
//! no figure, and a full list has no place for the second part.

use hadlephoga::{Collateral, Record, ITEMS, REPORT_LENGTH};

use crate::asked::{Asked, Reported};
use crate::cells::{cell, Cells};
use crate::compare::Difference;
use crate::entry_laws::{ground, wrong_split, EXPOSURE};
use crate::entry_records::shown;
use crate::heading::EDITIONS;
use crate::other_splits;
use crate::random::Random;
use crate::split_items::{as_cash, may_be_split, OUTCOMES};
use crate::splits::{amounts, placing, Placing, BETWEEN, FIRST, LAST, MOVES, PARTS, STAYS};
use crate::tally::Tally;

/// How many deals of a hundred get an item made such that it may be split, and such that it may
/// not.
const MADE_CASH: u64 = 30;
const MADE_OTHER: u64 = 8;
/// The most items of a list that has room for one more.
const ONE_PLACE_LEFT: usize = ITEMS - 1;

/// The refusal of a record that counts one too many.
const WRONG_RECORD: u64 = 40;

/// By edition, what became of the item, its parts, and where both stand.
pub fn split_cells(title: &'static str) -> Cells {
    let of = by_outcome().flat_map(|of| PARTS.map(|parts| [of[0], of[1], parts]));
    let of = of.flat_map(|[edition, outcome, parts]| {
        [STAYS, MOVES].map(|first| [edition, outcome, parts, first])
    });
    let cells = of.flat_map(|[edition, outcome, parts, first]| {
        [FIRST, BETWEEN, LAST].map(|second| cell(&[edition, outcome, parts, first, second]))
    });
    Cells::new(title, cells)
}

/// By edition and what became of the item before: on a list that just has room, and on a full
/// one.
pub fn full_cells(title: &'static str) -> Cells {
    let lists = [ONE_PLACE_LEFT, ITEMS].map(|count| count as u64);
    let cells = by_outcome().flat_map(|of| lists.map(|count| cell(&[of[0], of[1], count])));
    Cells::new(title, cells)
}

fn by_outcome() -> impl Iterator<Item = [u64; 2]> {
    let outcomes = OUTCOMES.into_iter();
    outcomes.flat_map(|outcome| EDITIONS.map(|edition| [edition, outcome]))
}

/// A record and its report, and the item that is to be split.
pub struct Found<'a> {
    pub record: &'a Record,
    pub report: &'a Reported,
    pub place: usize,
}

/// The accepted deal, with its report: an item of it that may be split, or one that is made so,
/// or made such that it may not.
pub fn splits(
    random: &mut Random,
    asked: Asked,
    record: &Record,
    report: &Reported,
    tally: &mut Tally,
) -> Result<(), Difference> {
    let counted = record
        .collateral
        .iter()
        .take(record.collateral_count as usize);
    let cash = counted
        .enumerate()
        .filter(|(_, item)| may_be_split(&record.terms, item));
    let cash = Vec::from_iter(cash.map(|(place, _)| place));
    if !cash.is_empty() {
        let place = random.pick(&cash);
        let found = Found {
            record,
            report,
            place,
        };
        split(random, asked, &found, tally)?;
    }
    let cases = match record.collateral_count as usize {
        0 => return Ok(()),
        // Few lists just have room.
        ONE_PLACE_LEFT => 100,
        _ => MADE_CASH,
    };
    if random.percent(cases) {
        made_cash(random, asked, (record, report), tally)?;
    }
    if random.percent(MADE_OTHER) {
        other_splits::splits(random, asked, (record, report), tally)?;
    }
    Ok(())
}

/// The place of a counted item, and the item with an amount that may leave something of E*.
pub fn taken(random: &mut Random, (record, report): (&Record, &Reported)) -> (usize, Collateral) {
    let place = random.index(record.collateral_count as usize);
    let mut item = record.collateral[place];
    if random.percent(70) {
        item.amount = random.between(2, report.1[EXPOSURE].max(2));
    }
    (place, item)
}

fn made_cash(
    random: &mut Random,
    asked: Asked,
    of: (&Record, &Reported),
    tally: &mut Tally,
) -> Result<(), Difference> {
    let (place, item) = taken(random, of);
    let outcome = random.weighted(&[
        (2, OUTCOMES[0]),
        (1, OUTCOMES[1]),
        (1, OUTCOMES[2]),
        (1, OUTCOMES[3]),
    ]);
    let mut record = of.0.clone();
    record.collateral[place] = as_cash(random, &record.terms, &item, outcome);
    let report = asked.report(random, &record.to_numbers(), tally)?;
    let found = Found {
        record: &record,
        report: &report,
        place,
    };
    split(random, asked, &found, tally)
}

/// One unmismatched cash item in the deal's currency in two, if there is room for them.
fn split(
    random: &mut Random,
    asked: Asked,
    found: &Found,
    tally: &mut Tally,
) -> Result<(), Difference> {
    if found.record.collateral_count as usize == ITEMS {
        return full(random, asked, found, tally);
    }
    let (before, place) = (found.report, found.place);
    let parts = random.pick(&PARTS);
    let (record, placing) = parted(random, found, parts);
    let after = asked.report(random, &record.to_numbers(), tally)?;
    let of = [place, record.guarantee_count as usize];
    if let Some(wrong) = wrong_split(of, &placing.places, [before, &after]) {
        let about = format!("a split of cash: {wrong}");
        return Err(asked.broken(&about, shown(found.record, &record), before, after));
    }
    if shows(found) {
        let Placing { first, second, .. } = placing;
        let outcome = ground(before, place);
        let cell = [record.terms.edition, outcome, parts, first, second];
        tally.entries.splits.meet(&cell);
        meet_full(&mut tally.entries.full, found);
    }
    Ok(())
}

/// Each part can have something, and E* would show what either is worth, or were it taken.
fn shows(found: &Found) -> bool {
    found.record.collateral[found.place].amount > 1 && found.report.1[EXPOSURE] > 0
}

/// The record with the item in two, and where the parts stand. What stands past the count moves
/// on, and the last of it is lost.
pub fn parted(random: &mut Random, found: &Found, parts: u64) -> (Record, Placing) {
    let count = found.record.collateral_count as usize;
    let before = &found.record.collateral;
    let placing = placing(random, found.place, count);
    let amounts = amounts(random, parts, before[found.place].amount);
    let mut record = found.record.clone();
    record.collateral[count + 1..].copy_from_slice(&before[count..ITEMS - 1]);
    for (to, from) in placing.places.iter().enumerate() {
        record.collateral[to] = before[*from];
    }
    for (part, amount) in placing.parts.into_iter().zip(amounts) {
        record.collateral[part].amount = amount;
    }
    record.collateral_count += 1;
    (record, placing)
}

/// The first part in the item's place, and no place for the second.
fn full(
    random: &mut Random,
    asked: Asked,
    found: &Found,
    tally: &mut Tally,
) -> Result<(), Difference> {
    let mut record = found.record.clone();
    let item = &mut record.collateral[found.place];
    let parts = random.pick(&PARTS);
    [item.amount, _] = amounts(random, parts, item.amount);
    record.collateral_count += 1;
    let after = asked.report(random, &record.to_numbers(), tally)?;
    if after != (WRONG_RECORD, [0; REPORT_LENGTH]) {
        let about = "a split on a full list: it is not refused";
        return Err(asked.broken(about, shown(found.record, &record), found.report, after));
    }
    meet_full(&mut tally.entries.full, found);
    Ok(())
}

fn meet_full(cells: &mut Cells, found: &Found) {
    let count = found.record.collateral_count;
    if count + 1 >= ITEMS as u64 {
        let outcome = ground(found.report, found.place);
        cells.meet(&[found.record.terms.edition, outcome, count]);
    }
}

#[cfg(test)]
mod tests {
    use super::*;
    use crate::deal::{deal_with, record};

    #[test]
    fn every_case_is_listed() {
        assert_eq!(split_cells("").all(), 3 * 4 * 5 * 2 * 3);
        assert_eq!(full_cells("").all(), 3 * 4 * 2);
    }

    /// Some deal, and its report with this added to E*.
    fn reported(asked: Asked, number: u64, spoiled: u64, tally: &mut Tally) -> (Record, Reported) {
        let random = &mut Random::new(227, number);
        let count = random.pick(&[1, 2, 3, 15, 16]);
        let edition = random.between(1, 3);
        let record = record(&deal_with(random, edition, count, 2));
        let Ok(mut report) = asked.report(random, &record.to_numbers(), tally) else {
            panic!("a difference");
        };
        report.1[EXPOSURE] += spoiled;
        (record, report)
    }

    #[test]
    fn cases_are_met() {
        let asked = Asked::Both;
        let tally = &mut Tally::new();
        for number in 0..2000 {
            let (record, report) = reported(asked, number, 0, tally);
            let random = &mut Random::new(229, number);
            let of = (&record, &report);
            for _ in 0..3 {
                assert!(made_cash(random, asked, of, tally).is_ok());
            }
            assert!(splits(random, asked, &record, &report, tally).is_ok());
        }
        let entries = &tally.entries;
        for (cells, least) in [(&entries.splits, 340), (&entries.full, 24)] {
            assert!(cells.met() >= least, "{}: {}", cells.title, cells.met());
            assert_eq!(cells.unlisted().count(), 0);
        }
    }

    #[test]
    fn a_figure_that_moves_is_told() {
        let tally = &mut Tally::new();
        let told = (0..100).filter(|number| {
            let (record, report) = reported(Asked::Both, *number, 1, tally);
            let counted = record
                .collateral
                .iter()
                .take(record.collateral_count as usize);
            let mut cash = counted.map(|item| may_be_split(&record.terms, item));
            let found = Found {
                record: &record,
                report: &report,
                place: cash.position(|is| is).unwrap_or(ITEMS),
            };
            let random = &mut Random::new(233, *number);
            if found.place == ITEMS || record.collateral_count as usize == ITEMS {
                return false;
            }
            let told = split(random, Asked::Both, &found, tally);
            assert!(told.is_err_and(|of| of.about == "a split of cash: E* moves"));
            true
        });
        assert!(told.count() > 5);
    }
}
