//! Places of reports: each of the sixteen of either list with each loss and with an
//! amount left out; and the same where nothing may be reported of it, past a count and
//! beside a refusal.

use hadlephoga::{Collateral, HeldGuarantee, Outcome, Record, Report, ITEMS};

use crate::cells::{cell, Cell, Cells};
use crate::heading::EDITIONS;
use crate::held::{GUARANTEE, INSTRUMENTS};
use crate::items::{self, Items};
use crate::sides::reference_report;

const OF_COLLATERAL: u64 = 1;
const OF_GUARANTEES: u64 = 2;

/// What is reported besides the value: losses, or the amount left out.
const HAIRCUT: u64 = 1;
const MATURITY: u64 = 2;
const CUT: u64 = 3;
const LEFT_OUT: u64 = 4;

pub struct ReportPlaces {
    counted: Cells,
    past_counts: Cells,
    refused: Cells,
}

impl ReportPlaces {
    pub fn new() -> Self {
        ReportPlaces {
            counted: Cells::new(
                "losses and left out by place: list, place, which",
                by_place(),
            ),
            past_counts: Cells::new(
                "losses and left out past a count: list, place, which",
                by_place(),
            ),
            refused: Cells::new(
                "losses and left out beside 40: list, which",
                parts().map(|part| cell(&part)),
            ),
        }
    }

    pub fn families(&self) -> [&Cells; 3] {
        [&self.counted, &self.past_counts, &self.refused]
    }

    /// The report of an accepted deal.
    pub fn meet(&mut self, items: &Items) {
        for (list, items) in [OF_COLLATERAL, OF_GUARANTEES].into_iter().zip(&items.lists) {
            for (place, item) in (1..).zip(items) {
                for part in reported(&item.outcome) {
                    self.counted.meet(&[list, place, part]);
                }
            }
        }
    }

    /// Counts what an accepted record holds past its counts, where it would be reported
    /// if it were counted.
    pub fn meet_past_counts(&mut self, record: &Record) {
        const LAST: usize = ITEMS - 1;
        if record.collateral[LAST] != Collateral::default() {
            let mut longer = record.clone();
            longer.collateral_count = ITEMS as u64;
            self.meet_past(OF_COLLATERAL, record.collateral_count, &longer);
        }
        if record.guarantees[LAST] != HeldGuarantee::default() {
            let mut longer = record.clone();
            longer.guarantee_count = ITEMS as u64;
            self.meet_past(OF_GUARANTEES, record.guarantee_count, &longer);
        }
    }

    fn meet_past(&mut self, list: u64, count: u64, longer: &Record) {
        let Some(report) = accepted(longer) else {
            return;
        };
        for (place, outcome) in (1..).zip(outcomes(list, &report)) {
            for part in reported(&outcome).filter(|_| place > count) {
                self.past_counts.meet(&[list, place, part]);
            }
        }
    }

    /// Counts what would be reported of a refused record if its edition, its counts and
    /// its instruments were known ones.
    pub fn meet_refused(&mut self, record: &Record) {
        let mut mended = record.clone();
        if !EDITIONS.contains(&mended.terms.edition) {
            mended.terms.edition = EDITIONS[0];
        }
        mended.collateral_count = mended.collateral_count.min(ITEMS as u64);
        mended.guarantee_count = mended.guarantee_count.min(ITEMS as u64);
        for item in &mut mended.guarantees {
            if !INSTRUMENTS.contains(&item.instrument) {
                item.instrument = GUARANTEE;
            }
        }
        let Some(report) = accepted(&mended) else {
            return;
        };
        for list in [OF_COLLATERAL, OF_GUARANTEES] {
            for outcome in outcomes(list, &report) {
                for part in reported(&outcome) {
                    self.refused.meet(&[list, part]);
                }
            }
        }
    }
}

/// The report of a record that is accepted, by the second implementation.
fn accepted(record: &Record) -> Option<Report> {
    let (refusal, report) = reference_report(&record.to_numbers());
    (refusal == 0).then(|| Report::from_numbers(&report))
}

fn outcomes(list: u64, report: &Report) -> [Outcome; ITEMS] {
    match list {
        OF_COLLATERAL => report.collateral,
        _ => report.guarantees.map(|cover| cover.outcome),
    }
}

/// Collateral is not cut.
fn parts() -> impl Iterator<Item = [u64; 2]> {
    let of_collateral = [HAIRCUT, MATURITY, LEFT_OUT].map(|part| [OF_COLLATERAL, part]);
    let of_guarantees = [HAIRCUT, MATURITY, CUT, LEFT_OUT].map(|part| [OF_GUARANTEES, part]);
    of_collateral.into_iter().chain(of_guarantees)
}

fn by_place() -> impl Iterator<Item = Cell> {
    parts().flat_map(|[list, part]| {
        let places = 1..=ITEMS as u64;
        places.map(move |place| cell(&[list, place, part]))
    })
}

/// Those that are not 0.
fn reported(outcome: &Outcome) -> impl Iterator<Item = u64> {
    let reported = (HAIRCUT..=LEFT_OUT).zip(items::parts(outcome));
    let reported = reported.filter(|(_, number)| *number > 0);
    reported.map(|(part, _)| part)
}

#[cfg(test)]
mod tests {
    use super::*;
    use crate::held::WITHOUT_CONDITION;
    use hadlephoga::Terms;

    #[test]
    fn every_place_is_listed() {
        let all = ReportPlaces::new().families().map(Cells::all);
        assert_eq!(all, [16 * 7, 16 * 7, 7]);
    }

    fn met(cells: &Cells) -> Vec<[u64; 3]> {
        assert_eq!(cells.unlisted().count(), 0);
        let met = cells.counts().filter(|(_, count)| *count > 0);
        met.map(|(cell, _)| [cell[0], cell[1], cell[2]]).collect()
    }

    /// A loan with cash in another currency, once more that is left out, and a swap.
    fn record() -> Record {
        let terms = Terms::from_numbers(&[500, 3, 0, 0, 978, 3, 1, 90, 1, 0, 0, 1]);
        let cash = |lawful| Collateral::from_numbers(&[50, 1, 0, 0, 840, 90, 90, lawful, 1, 1, 0]);
        let swap = [50, 1, 1, 0, 978, 90, 90, 1, 1, 1, WITHOUT_CONDITION];
        let swap = HeldGuarantee::from_numbers(&swap);
        Record::new(terms, &[cash(1), cash(0)], &[swap])
    }

    const HAIRCUT_OF_FIRST: [u64; 3] = [OF_COLLATERAL, 1, HAIRCUT];
    const LEFT_OUT_AT_SECOND: [u64; 3] = [OF_COLLATERAL, 2, LEFT_OUT];
    const CUT_OF_FIRST: [u64; 3] = [OF_GUARANTEES, 1, CUT];

    #[test]
    fn counted_places() {
        let record = record();
        let report = hadlephoga::report(&record).expect("an accepted deal");
        let mut places = ReportPlaces::new();
        places.meet(&Items::new(&record, &report));
        places.meet_past_counts(&record);
        let due = [HAIRCUT_OF_FIRST, LEFT_OUT_AT_SECOND, CUT_OF_FIRST];
        assert_eq!(met(&places.counted), due);
        assert_eq!(met(&places.past_counts), [[0; 3]; 0]);
    }

    #[test]
    fn places_past_a_count() {
        let mut record = record();
        for place in 2..ITEMS {
            record.collateral[place] = record.collateral[0];
        }
        for place in 1..ITEMS {
            record.guarantees[place] = record.guarantees[0];
        }
        let mut places = ReportPlaces::new();
        places.meet_past_counts(&record);
        assert_eq!(met(&places.past_counts).len(), 14 + 15);
        record.collateral_count = 0;
        // It would be refused if it were counted.
        record.guarantees[2].instrument = 3;
        places = ReportPlaces::new();
        places.meet_past_counts(&record);
        let met = met(&places.past_counts);
        assert_eq!(met.len(), 16);
        assert_eq!(met[..2], [HAIRCUT_OF_FIRST, LEFT_OUT_AT_SECOND]);
    }

    #[test]
    fn what_a_refusal_keeps_back() {
        let mut places = ReportPlaces::new();
        let mut refused = record();
        refused.terms.edition = 4;
        refused.guarantees[0].instrument = 3;
        places.meet_refused(&refused);
        let of_collateral = [HAIRCUT, LEFT_OUT].map(|part| [OF_COLLATERAL, part, 0]);
        assert_eq!(met(&places.refused), of_collateral);
        refused.terms.class = 5;
        places = ReportPlaces::new();
        places.meet_refused(&refused);
        assert_eq!(met(&places.refused), [[0; 3]; 0]);
    }
}
