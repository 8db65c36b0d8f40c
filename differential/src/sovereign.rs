//! The step of a party's sovereign: the entries that are right for its class and
//! those that are wrong, each to be met where it alone decides.

use std::ops::RangeInclusive;

use hadlephoga::{Record, ITEMS};

use crate::cells::{cell, Cell, Cells};
use crate::heading::{is_sent, CLASS, EDITIONS, SOVEREIGN_STEP, STEP};
use crate::held::{self, LETTERS};
use crate::line::Line;
use crate::random::Random;
use crate::sides::{reference_refusal, reference_report};

const RETAIL: u64 = 4;
const LAST_STEP: u64 = 6;
/// The refusal of a step.
const STEP_REFUSED: u64 = 3;

/// Classes of a counterparty, or of a provider.
fn classes(letter: u8) -> RangeInclusive<u64> {
    match letter {
        b'D' => 1..=4,
        _ => 1..=3,
    }
}

/// Banks and class 3 have a sovereign.
pub fn right_steps(class: u64) -> RangeInclusive<u64> {
    match class {
        2 | 3 => 0..=LAST_STEP,
        _ => 0..=0,
    }
}

/// Entries that a narrower width would make 0, which is right for every class.
const CUT_OFF: [u64; 3] = [1 << 8, 1 << 16, 1 << 32];

/// The nearest wrong entries, up to 7, which is wrong for every class, and those
/// that a cut would make right.
fn wrong_steps(class: u64) -> Vec<u64> {
    let near = right_steps(class).end() + 1..=LAST_STEP + 1;
    near.chain(CUT_OFF).collect()
}

fn is_wrong(letter: u8, fields: &[u64]) -> bool {
    let class = fields[CLASS];
    classes(letter).contains(&class) && wrong_steps(class).contains(&fields[SOVEREIGN_STEP])
}

/// Letter, class and each of these entries.
fn entries(letters: &'static [u8], steps: impl Fn(u64) -> Vec<u64> + Copy) -> Vec<[u64; 3]> {
    let entries = letters.iter().flat_map(|letter| {
        let of = move |class| {
            let steps = steps(class).into_iter();
            steps.map(move |step| [u64::from(*letter), class, step])
        };
        classes(*letter).flat_map(of)
    });
    entries.collect()
}

/// Entries by letter and class, and by edition.
pub struct Sovereigns {
    /// Wrong ones of lines, where lines have the entry.
    lines: Cells,
    /// Right and wrong ones in opening and adding.
    numbers: Cells,
    /// Wrong ones of records.
    records: Cells,
    /// Wrong ones of providers past a count, by letter and class.
    past_counts: Cells,
}

impl Sovereigns {
    pub fn new() -> Self {
        let wrong = entries(b"DGS", wrong_steps);
        let mut all = entries(b"DGS", |class| right_steps(class).collect());
        all.extend(&wrong);
        Sovereigns {
            lines: Cells::new(
                "wrong sovereign's steps of lines: line, class, entry, edition",
                by_edition(&wrong).filter(|cell| is_sent(cell[3], b'D', SOVEREIGN_STEP)),
            ),
            numbers: Cells::new(
                "sovereign's steps in opening and adding: line, class, entry, edition",
                by_edition(&all),
            ),
            records: Cells::new(
                "wrong sovereign's steps of records: line, class, entry, edition",
                by_edition(&wrong),
            ),
            past_counts: Cells::new(
                "wrong sovereign's steps past a count: line, class",
                (LETTERS.into_iter())
                    .flat_map(|of| classes(of).map(move |class| cell(&[of.into(), class]))),
            ),
        }
    }

    pub fn families(&self) -> [&Cells; 4] {
        [&self.lines, &self.numbers, &self.records, &self.past_counts]
    }

    /// Counts the wrong entry of a line that was refused so in a book of this
    /// edition.
    pub fn meet_line(&mut self, line: &Line, edition: u64, refusal: u64) {
        let Line { letter, fields } = line;
        if refusal == STEP_REFUSED && *letter != b'C' && is_cause(*letter, fields) {
            let (class, step) = (fields[CLASS], fields[SOVEREIGN_STEP]);
            let cell = [(*letter).into(), class, step, edition];
            self.lines.meet(&cell);
        }
    }

    /// Counts the entry of terms, of a guarantee or of a swap that opening or adding
    /// answered so, in a deal of this edition.
    pub fn meet_numbers(&mut self, letter: u8, fields: &[u64], edition: u64, refusal: u64) {
        let met = match refusal {
            0 => true,
            STEP_REFUSED => is_cause(letter, fields),
            _ => false,
        };
        if met && EDITIONS.contains(&edition) {
            let (class, step) = (fields[CLASS], fields[SOVEREIGN_STEP]);
            self.numbers.meet(&[letter.into(), class, step, edition]);
        }
    }

    /// Counts the wrong entry of a record that is refused for it alone.
    pub fn meet_record(&mut self, record: &Record) {
        let mut mended = record.clone();
        let counted = record.guarantee_count.min(ITEMS as u64) as usize;
        let mut counted = record.guarantees[..counted].iter();
        let terms = record.terms.to_numbers();
        let (letter, class, step) = if is_wrong(b'D', &terms) {
            mended.terms.sovereign_step = 0;
            (b'D', record.terms.class, record.terms.sovereign_step)
        } else if let Some(place) = counted.position(|item| is_wrong(b'G', &item.to_numbers())) {
            let item = &mut mended.guarantees[place];
            let letter = held::line(item).letter;
            (letter, item.class, std::mem::take(&mut item.sovereign_step))
        } else {
            return;
        };
        if reference_report(&mended.to_numbers()).0 == 0 {
            let edition = record.terms.edition;
            self.records.meet(&[letter.into(), class, step, edition]);
        }
    }

    /// Counts the provider behind the count of an accepted record, if it would
    /// be refused for its entry alone.
    pub fn meet_past_count(&mut self, record: &Record) {
        let Some(item) = record.guarantees.get(record.guarantee_count as usize) else {
            return;
        };
        let Line { letter, mut fields } = held::line(item);
        if is_wrong(letter, &fields) {
            fields[SOVEREIGN_STEP] = 0;
            if reference_refusal(letter, &fields) == 0 {
                self.past_counts.meet(&[letter.into(), item.class]);
            }
        }
    }
}

fn by_edition(entries: &[[u64; 3]]) -> impl Iterator<Item = Cell> + '_ {
    EDITIONS.into_iter().flat_map(move |edition| {
        let entries = entries.iter();
        entries.map(move |[letter, class, step]| cell(&[*letter, *class, *step, edition]))
    })
}

/// Whether the entry is wrong and the refusal goes away with a right one.
fn is_cause(letter: u8, fields: &[u64]) -> bool {
    is_wrong(letter, fields) && {
        let mut fields = fields.to_vec();
        fields[SOVEREIGN_STEP] = 0;
        reference_refusal(letter, &fields) != STEP_REFUSED
    }
}

/// Puts a wrong entry into terms, a guarantee or a swap, of any class; nothing else is
/// refused of a line that was accepted. Lines C have none.
pub fn put_wrong(random: &mut Random, line: &mut Line) {
    if line.letter == b'C' {
        return;
    }
    // Each entry as often as any other, whatever its class has.
    let of = |class| {
        wrong_steps(class)
            .into_iter()
            .map(move |step| [class, step])
    };
    let entries = Vec::from_iter(classes(line.letter).flat_map(of));
    let [class, step] = random.pick(&entries);
    line.fields[CLASS] = class;
    line.fields[SOVEREIGN_STEP] = step;
    if class == RETAIL {
        line.fields[STEP] = 0;
    }
}

#[cfg(test)]
mod tests {
    use super::*;
    use crate::deal::deal_with;
    use hadlephoga::{HeldGuarantee, Terms};

    #[test]
    fn every_entry_is_listed() {
        let sovereigns = Sovereigns::new();
        // Counterparties: 1 + 7 + 7 + 1 right, 10 + 4 + 4 + 10 wrong; providers 15
        // and 18, of guarantees and of swaps.
        assert_eq!(sovereigns.lines.all(), 2 * (28 + 2 * 18));
        assert_eq!(sovereigns.numbers.all(), 3 * (16 + 28 + 2 * (15 + 18)));
        assert_eq!(sovereigns.records.all(), 3 * (28 + 2 * 18));
        assert_eq!(sovereigns.past_counts.all(), 2 * 3);
    }

    #[test]
    fn a_wrong_entry_is_the_only_cause() {
        let mut met = Sovereigns::new();
        for number in 0..3000 {
            let random = &mut Random::new(19, number);
            let edition = number % 3 + 1;
            for mut line in deal_with(random, edition, 0, 1) {
                met.meet_numbers(line.letter, &line.fields, edition, 0);
                put_wrong(random, &mut line);
                let refusal = reference_refusal(line.letter, &line.fields);
                assert_eq!(refusal, STEP_REFUSED, "{line:?}");
                if edition != 1 {
                    met.meet_line(&line, edition, refusal);
                }
                met.meet_numbers(line.letter, &line.fields, edition, refusal);
            }
        }
        for cells in [met.lines, met.numbers] {
            assert_eq!(cells.met(), cells.all());
            assert_eq!(cells.unlisted().count(), 0);
        }
    }

    #[test]
    fn other_causes_are_not_met() {
        let mut met = Sovereigns::new();
        let terms = [500, 3, 7, 7, 978, 3, 1, 90, 1, 0, 0, 2];
        met.meet_line(&Line::new(b'D', &terms), 2, STEP_REFUSED);
        met.meet_line(&Line::new(b'D', &terms), 2, 1);
        met.meet_numbers(b'D', &terms, 2, STEP_REFUSED);
        met.meet_record(&Record::new(Terms::from_numbers(&terms), &[], &[]));
        assert!(met.families().iter().all(|cells| cells.met() == 0));
    }

    #[test]
    fn entries_of_records() {
        let mut met = Sovereigns::new();
        let terms = Terms::from_numbers(&[500, 3, 0, 0, 978, 3, 1, 90, 1, 0, 0, 2]);
        let item = |step| HeldGuarantee::from_numbers(&[9, 1, 1, step, 978, 90, 90, 1, 1, 1, 2]);
        let mut record = Record::new(terms, &[], &[item(0), item(4)]);
        met.meet_record(&record);
        let due = cell(&[b'S'.into(), 1, 4, 2]);
        assert!(met
            .records
            .counts()
            .any(|(cell, count)| *cell == due && count == 1));
        record.guarantee_count = 1;
        met.meet_past_count(&record);
        record.guarantee_count = 16;
        met.meet_past_count(&record);
        assert_eq!((met.records.met(), met.past_counts.met()), (1, 1));
    }
}
