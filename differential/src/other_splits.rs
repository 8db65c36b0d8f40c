//! Records of accepted deals with an item of collateral in two that may not be split: a haircut
//! or a mismatch takes something of each part, and rounding may move the figures, upward alone.

use hadlephoga::{Record, ITEMS};

use crate::asked::{Asked, Reported};
use crate::cells::{cell, Cells};
use crate::compare::Difference;
use crate::entry_laws::{wrong_other_split, EXPOSURE, WEIGHTED_AMOUNT};
use crate::entry_records::shown;
use crate::heading::EDITIONS;
use crate::random::Random;
use crate::record_splits::{parted, taken, Found};
use crate::split_items::{as_other, OTHERS};
use crate::splits::{ANY, HALVES, ONE_UNIT};
use crate::tally::Tally;

/// The figures, and where they stand in a report.
const FIGURES: [(u64, usize); 2] = [(1, EXPOSURE), (2, WEIGHTED_AMOUNT)];

/// By edition, why the item may not be split, and which figure moves.
pub fn cells(title: &'static str) -> Cells {
    let of = OTHERS.into_iter();
    let of = of.flat_map(|which| EDITIONS.map(|edition| [edition, which]));
    let cells =
        of.flat_map(|[edition, which]| FIGURES.map(|(figure, _)| cell(&[edition, which, figure])));
    Cells::new(title, cells)
}

/// The accepted deal, with its report and at least one item of collateral, if there is room.
pub fn splits(
    random: &mut Random,
    asked: Asked,
    of: (&Record, &Reported),
    tally: &mut Tally,
) -> Result<(), Difference> {
    let (place, item) = taken(random, of);
    let which = random.pick(&OTHERS);
    let mut record = of.0.clone();
    match as_other(random, &record.terms, &item, which) {
        Some(other) if (record.collateral_count as usize) < ITEMS => {
            record.collateral[place] = other;
        }
        _ => return Ok(()),
    }
    let before = asked.report(random, &record.to_numbers(), tally)?;
    let found = Found {
        record: &record,
        report: &before,
        place,
    };
    let parts = random.pick(&[ONE_UNIT, HALVES, ANY]);
    let (split, _) = parted(random, &found, parts);
    let after = asked.report(random, &split.to_numbers(), tally)?;
    if let Some(wrong) = wrong_other_split([&before, &after]) {
        let about = format!("a split of other collateral: {wrong}");
        return Err(asked.broken(&about, shown(&record, &split), before, after));
    }
    let edition = record.terms.edition;
    for (figure, _) in FIGURES
        .iter()
        .filter(|(_, of)| before.1[*of] != after.1[*of])
    {
        tally.entries.moved.meet(&[edition, which, *figure]);
    }
    Ok(())
}

#[cfg(test)]
mod tests {
    use super::*;
    use crate::deal::{deal_with, record};

    #[test]
    fn every_case_is_met() {
        assert_eq!(cells("").all(), 3 * 3 * 2);
        let asked = Asked::Both;
        let tally = &mut Tally::new();
        for number in 0..2000 {
            let random = &mut Random::new(277, number);
            let edition = random.between(1, 3);
            let record = record(&deal_with(random, edition, 2, 1));
            let Ok(report) = asked.report(random, &record.to_numbers(), tally) else {
                panic!("a difference");
            };
            assert!(splits(random, asked, (&record, &report), tally).is_ok());
        }
        let moved = &tally.entries.moved;
        assert_eq!((moved.met(), moved.unlisted().count()), (18, 0));
    }
}
