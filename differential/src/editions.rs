//! Editions that opening and reporting know, and those that they do not.

use hadlephoga::RECORD_LENGTH;

use crate::cells::Cells;
use crate::heading::{EDITION, EDITIONS};
use crate::random::Random;
use crate::sides::{reference_refusal, reference_report};

/// Next to the known ones, and such as a narrower width would make known.
const UNKNOWN: &[u64] = &[
    0,
    4,
    5,
    (1 << 8) + 1,
    (1 << 8) + 2,
    (1 << 8) + 3,
    (1 << 16) + 1,
    (1 << 16) + 2,
    (1 << 16) + 3,
    (1 << 32) + 1,
    (1 << 32) + 2,
    (1 << 32) + 3,
    u64::MAX,
];

/// The refusal of an unknown class, kind, type or edition.
const UNKNOWN_REFUSED: u64 = 2;

pub fn unknown(random: &mut Random) -> u64 {
    random.pick(UNKNOWN)
}

/// Each known edition accepted, each of the others refused for it alone.
pub struct Editions {
    opened: Cells,
    records: Cells,
}

impl Editions {
    pub fn new() -> Self {
        let cells = |title| Cells::of_numbers(title, EDITIONS.iter().chain(UNKNOWN).copied());
        Editions {
            opened: cells("editions in opening, known and unknown"),
            records: cells("editions of records, known and unknown"),
        }
    }

    pub fn families(&self) -> [&Cells; 2] {
        [&self.opened, &self.records]
    }

    /// Counts the edition of terms that opening answered so.
    pub fn meet_opening(&mut self, terms: &[u64], refusal: u64) {
        let met = match refusal {
            0 => true,
            UNKNOWN_REFUSED => {
                let mut known = terms.to_vec();
                known[EDITION] = EDITIONS[0];
                UNKNOWN.contains(&terms[EDITION])
                    && reference_refusal(b'D', &known) != UNKNOWN_REFUSED
            }
            _ => false,
        };
        if met {
            self.opened.meet(&[terms[EDITION]]);
        }
    }

    /// Counts the edition of a record that was reported, or refused.
    pub fn meet_record(&mut self, numbers: &[u64; RECORD_LENGTH], refusal: u64) {
        let edition = numbers[EDITION];
        let is_cause = || {
            let mut known = *numbers;
            known[EDITION] = EDITIONS[0];
            reference_report(&known).0 == 0
        };
        if refusal == 0 || UNKNOWN.contains(&edition) && is_cause() {
            self.records.meet(&[edition]);
        }
    }
}

#[cfg(test)]
mod tests {
    use super::*;
    use crate::values;
    use hadlephoga::Record;

    #[test]
    fn known_and_unknown_editions() {
        let mut met = Editions::new();
        for number in 0..300 {
            let random = &mut Random::new(23, number);
            let known = values::edition(random);
            for edition in [known, unknown(random)] {
                let terms = values::terms(random, edition);
                let refusal = reference_refusal(b'D', &terms.to_numbers());
                assert_eq!(refusal, u64::from(edition != known) * UNKNOWN_REFUSED);
                met.meet_opening(&terms.to_numbers(), refusal);
                let record = Record::new(terms, &[], &[]).to_numbers();
                met.meet_record(&record, reference_report(&record).0);
            }
        }
        for cells in met.families() {
            assert_eq!(cells.met(), EDITIONS.len() + UNKNOWN.len());
            assert_eq!(cells.met(), cells.all());
            assert_eq!(cells.unlisted().count(), 0);
        }
    }

    #[test]
    fn other_causes_are_not_met() {
        let mut met = Editions::new();
        let unknown_class = [500, 5, 0, 0, 978, 3, 1, 90, 1, 0, 0, 4];
        met.meet_opening(&unknown_class, UNKNOWN_REFUSED);
        met.meet_opening(&[1; 3], 11);
        met.meet_record(&[4; RECORD_LENGTH], 40);
        assert!(met.families().iter().all(|cells| cells.met() == 0));
    }
}
