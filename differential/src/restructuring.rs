//! The entry of a swap's restructuring condition, right and wrong, and the
//! instrument that a record holds for it; each to be met where it alone decides.

use hadlephoga::{Record, ITEMS};

use crate::cells::{cell, Cell, Cells};
use crate::heading::EDITIONS;
use crate::held::{GUARANTEE, INSTRUMENTS, RESTRUCTURING};
use crate::line::Line;
use crate::random::Random;
use crate::sides::{reference_refusal, reference_report};

/// The refusals of a condition and of a record.
const CONDITION_REFUSED: u64 = 8;
const RECORD_REFUSED: u64 = 40;

const RIGHT: [u64; 2] = [0, 1];
/// Next to the right ones, such as a narrower width would make right, and the
/// largest of a line.
const WRONG: [u64; 7] = [
    2,
    3,
    1 << 8,
    1 << 16,
    1 << 32,
    (1 << 32) + 1,
    9_999_999_999_999,
];
/// No line has so many digits.
const WRONG_NUMBER: u64 = u64::MAX;

/// Next to the known instruments, and such as a narrower width would make known.
const UNKNOWN: [u64; 11] = [
    3,
    4,
    1 << 8,
    (1 << 8) + 1,
    (1 << 8) + 2,
    1 << 16,
    (1 << 16) + 1,
    1 << 32,
    (1 << 32) + 1,
    (1 << 32) + 2,
    u64::MAX,
];

/// Refusals that come before that of the entry, of a line and of adding.
const BEFORE_IN_LINES: [u64; 7] = [1, 2, 3, 4, 5, 6, 7];
const BEFORE_IN_ADDING: [u64; 8] = [1, 2, 3, 4, 5, 6, 7, RECORD_REFUSED];

pub struct Restructuring {
    /// Wrong entries of lines, by edition.
    lines: Cells,
    /// Right and wrong ones in adding, by the record's edition.
    added: Cells,
    /// Other refusals of swaps whose entry is wrong too: of a line or of adding.
    before: Cells,
    /// Known and unknown instruments of counted places, by edition.
    records: Cells,
    /// Records that adding refuses for an instrument, by what was to be added.
    adding_to: Cells,
    /// Unknown ones past a count, in a report and in adding.
    past_counts: Cells,
}

const IN_LINES: u64 = 1;
const IN_ADDING: u64 = 2;
const IN_REPORTS: u64 = 3;

impl Restructuring {
    pub fn new() -> Self {
        let known_and_unknown = INSTRUMENTS.iter().chain(&UNKNOWN).copied();
        let in_adding = RIGHT.into_iter().chain(WRONG).chain([WRONG_NUMBER]);
        let before = |of, refusals: &[u64]| {
            let cells = refusals.iter().map(move |refusal| cell(&[of, *refusal]));
            Vec::from_iter(cells)
        };
        let unknown = |firsts: &[u64]| {
            let cells = firsts.iter();
            let cells = cells.flat_map(|first| UNKNOWN.map(|unknown| cell(&[*first, unknown])));
            Vec::from_iter(cells)
        };
        Restructuring {
            lines: Cells::new(
                "wrong restructuring conditions of lines: entry, edition",
                by_edition(WRONG),
            ),
            added: Cells::new(
                "restructuring conditions in adding: entry, edition",
                by_edition(in_adding),
            ),
            before: Cells::new(
                "refusals before that of the condition: line or adding, refusal",
                [
                    before(IN_LINES, &BEFORE_IN_LINES),
                    before(IN_ADDING, &BEFORE_IN_ADDING),
                ]
                .concat(),
            ),
            records: Cells::new(
                "instruments of records: instrument, edition",
                by_edition(known_and_unknown),
            ),
            adding_to: Cells::new(
                "unknown instruments of records in adding: line, instrument",
                unknown(&b"CGS".map(u64::from)),
            ),
            past_counts: Cells::new(
                "unknown instruments past a count: report or adding, instrument",
                unknown(&[IN_ADDING, IN_REPORTS]),
            ),
        }
    }

    pub fn families(&self) -> [&Cells; 6] {
        [
            &self.lines,
            &self.added,
            &self.before,
            &self.records,
            &self.adding_to,
            &self.past_counts,
        ]
    }

    /// Counts the wrong entry of a line that was refused so in a book of this
    /// edition.
    pub fn meet_line(&mut self, line: &Line, edition: u64, refusal: u64) {
        if line.letter != b'S' || line.fields[RESTRUCTURING] <= 1 {
            return;
        }
        if refusal != CONDITION_REFUSED {
            self.before.meet(&[IN_LINES, refusal]);
        } else if WRONG.contains(&line.fields[RESTRUCTURING]) && is_cause(&line.fields) {
            self.lines.meet(&[line.fields[RESTRUCTURING], edition]);
        }
    }

    /// Counts the entry of a swap that adding answered so, in a deal of this edition.
    pub fn meet_added(&mut self, fields: &[u64], edition: u64, refusal: u64) {
        let Some(entry) = fields.get(RESTRUCTURING).copied() else {
            return;
        };
        if entry > 1 && BEFORE_IN_ADDING.contains(&refusal) {
            self.before.meet(&[IN_ADDING, refusal]);
        }
        let met = match refusal {
            0 => true,
            CONDITION_REFUSED => is_listed(entry) && is_cause(fields),
            _ => false,
        };
        if met {
            self.added.meet(&[entry, edition]);
        }
    }

    /// Counts the instruments of a record that was reported, and an unknown one behind
    /// its count.
    pub fn meet_reported(&mut self, record: &Record) {
        for item in &record.guarantees[..record.guarantee_count as usize] {
            self.records.meet(&[item.instrument, record.terms.edition]);
        }
        self.meet_past_count(record, IN_REPORTS);
    }

    /// Counts the unknown instrument of a record that is refused for it alone.
    pub fn meet_refused(&mut self, record: &Record) {
        if let Some(unknown) = refused_for(record) {
            self.records.meet(&[unknown, record.terms.edition]);
        }
    }

    /// Counts the same of a record to which an item with this letter was to be added.
    pub fn meet_adding_to(&mut self, letter: u8, record: &Record, refusal: u64) {
        match refusal {
            0 => self.meet_past_count(record, IN_ADDING),
            RECORD_REFUSED => {
                if let Some(unknown) = refused_for(record) {
                    self.adding_to.meet(&[letter.into(), unknown]);
                }
            }
            _ => {}
        }
    }

    /// Counts the last place of an accepted record, which adding does not write
    /// to, if it would be refused for its instrument alone.
    fn meet_past_count(&mut self, record: &Record, of: u64) {
        let last = record.guarantees[ITEMS - 1];
        if record.guarantee_count as usize >= ITEMS - 1 || !UNKNOWN.contains(&last.instrument) {
            return;
        }
        let mut counted = record.clone();
        counted.guarantees[0] = last;
        counted.guarantees[0].instrument = GUARANTEE;
        counted.guarantee_count = 1;
        if reference_report(&counted.to_numbers()).0 == 0 {
            self.past_counts.meet(&[of, last.instrument]);
        }
    }
}

fn by_edition(numbers: impl IntoIterator<Item = u64>) -> Vec<Cell> {
    let cells = numbers.into_iter();
    let cells = cells.flat_map(|number| EDITIONS.map(|edition| cell(&[number, edition])));
    cells.collect()
}

fn is_listed(entry: u64) -> bool {
    WRONG.contains(&entry) || entry == WRONG_NUMBER
}

/// Whether the refusal goes away with a right entry.
fn is_cause(fields: &[u64]) -> bool {
    let mut fields = fields.to_vec();
    fields[RESTRUCTURING] = RIGHT[0];
    reference_refusal(b'S', &fields) != CONDITION_REFUSED
}

/// The unknown instrument of a counted place, if the record is accepted without it.
fn refused_for(record: &Record) -> Option<u64> {
    let mut mended = record.clone();
    let counted = record.guarantee_count.min(ITEMS as u64) as usize;
    let mut counted = mended.guarantees[..counted].iter_mut();
    let item = counted.find(|item| UNKNOWN.contains(&item.instrument))?;
    let unknown = std::mem::replace(&mut item.instrument, GUARANTEE);
    (reference_report(&mended.to_numbers()).0 == 0).then_some(unknown)
}

/// Puts a wrong entry into a swap; nothing else is refused of one that was accepted.
pub fn put_wrong(random: &mut Random, line: &mut Line) {
    line.fields[RESTRUCTURING] = random.pick(&WRONG);
}

/// The same, of numbers that no line need hold.
pub fn put_wrong_number(random: &mut Random, line: &mut Line) {
    match random.percent(20) {
        true => line.fields[RESTRUCTURING] = WRONG_NUMBER,
        false => put_wrong(random, line),
    }
}

pub fn unknown(random: &mut Random) -> u64 {
    random.pick(&UNKNOWN)
}

#[cfg(test)]
mod tests {
    use super::*;
    use hadlephoga::{HeldGuarantee, Terms};

    const SWAP: [u64; 11] = [9, 1, 1, 0, 978, 90, 90, 1, 1, 1, 0];

    #[test]
    fn every_entry_is_listed() {
        let all = Restructuring::new().families().map(Cells::all);
        assert_eq!(all, [3 * 7, 3 * 10, 7 + 8, 3 * 14, 3 * 11, 2 * 11]);
    }

    #[test]
    fn a_wrong_entry_is_the_only_cause() {
        let mut met = Restructuring::new();
        for number in 0..500 {
            let random = &mut Random::new(83, number);
            let edition = number % 3 + 1;
            let mut line = Line::new(b'S', &SWAP);
            line.fields[RESTRUCTURING] = random.below(2);
            met.meet_added(&line.fields, edition, 0);
            put_wrong(random, &mut line);
            assert_eq!(reference_refusal(b'S', &line.fields), CONDITION_REFUSED);
            met.meet_line(&line, edition, CONDITION_REFUSED);
            put_wrong_number(random, &mut line);
            met.meet_added(&line.fields, edition, CONDITION_REFUSED);
        }
        for cells in [&met.lines, &met.added] {
            assert_eq!(cells.met(), cells.all());
            assert_eq!(cells.unlisted().count(), 0);
        }
    }

    #[test]
    fn other_causes_are_not_met() {
        let mut met = Restructuring::new();
        let mut line = Line::new(b'S', &SWAP);
        line.fields[RESTRUCTURING] = 2;
        line.fields[RESTRUCTURING - 1] = 2;
        met.meet_line(&line, 1, CONDITION_REFUSED);
        met.meet_added(&line.fields, 1, CONDITION_REFUSED);
        met.meet_added(&[1; 10], 1, 11);
        assert!(met.families().iter().all(|cells| cells.met() == 0));
        // Nor those that come after another refusal, but as such.
        met.meet_line(&line, 1, 7);
        met.meet_added(&line.fields, 1, RECORD_REFUSED);
        assert_eq!(met.families().map(Cells::met), [0, 0, 2, 0, 0, 0]);
    }

    #[test]
    fn instruments_of_records() {
        let mut met = Restructuring::new();
        let terms = Terms::from_numbers(&[500, 3, 0, 0, 978, 3, 1, 90, 1, 0, 0, 2]);
        let item = HeldGuarantee::from_numbers(&SWAP);
        let mut record = Record::new(terms, &[], &[item, item]);
        record.guarantees[1].instrument = 3;
        met.meet_refused(&record);
        met.meet_adding_to(b'C', &record, RECORD_REFUSED);
        record.guarantees[0].step = 7;
        met.meet_refused(&record);
        assert_eq!(met.families().map(Cells::met), [0, 0, 0, 1, 1, 0]);
        let mut record = Record::new(terms, &[], &[item]);
        met.meet_reported(&record);
        record.guarantees[ITEMS - 1] = item;
        record.guarantees[ITEMS - 1].instrument = 257;
        met.meet_reported(&record);
        met.meet_adding_to(b'S', &record, 0);
        assert_eq!(met.families().map(Cells::met), [0, 0, 0, 2, 1, 2]);
    }
}
