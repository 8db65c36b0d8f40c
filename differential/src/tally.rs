//! What a run met, and the cases that it should meet.

use std::collections::BTreeMap;

use hadlephoga::{Collateral, Cover, HeldGuarantee, Outcome, Record, Report, Terms};

use crate::answers::{named, Answers};
use crate::cells::Cells;
use crate::changes;
use crate::cuts::Cuts;
use crate::days;
use crate::editions::Editions;
use crate::entries::Entries;
use crate::first_lines::FirstLines;
use crate::floors;
use crate::full_list;
use crate::haircuts::Haircuts;
use crate::held::{self, GUARANTEE};
use crate::items::Items;
use crate::left_out::LeftOut;
use crate::line::{self, Line};
use crate::loss_mistakes;
use crate::losses::Losses;
use crate::mail::Mail;
use crate::netting::Netting;
use crate::order::Order;
use crate::parties::Parties;
use crate::report_places::ReportPlaces;
use crate::restructuring::Restructuring;
use crate::sovereign::Sovereigns;
use crate::stored::Stored;

/// How much there was of each.
#[derive(Default)]
pub struct Counts {
    pub books: u64,
    pub books_by_kind: BTreeMap<&'static str, u64>,
    /// Answered books, by edition.
    pub answered_books: BTreeMap<u64, u64>,
    pub deals: u64,
    pub accepted_deals: u64,
    /// Lines of answered books, by letter.
    pub lines: BTreeMap<u8, u64>,
    /// Records that no book gave.
    pub records: u64,
    pub accepted_records: u64,
    pub valued_collateral: u64,
    pub valued_guarantees: u64,
    pub valued_swaps: u64,
    pub numbers: u64,
}

pub struct Tally {
    pub counts: Counts,
    pub book_sizes: Cells,
    pub answers: Answers,
    /// Of accepted deals and of refused lines.
    pub days: Cells,
    pub days_on_numbers: Cells,
    pub haircuts: Haircuts,
    pub stored: Stored,
    pub parties: Parties,
    pub floors: Cells,
    /// From an earlier edition to edition 3.
    pub changes: Cells,
    pub first_lines: FirstLines,
    pub editions: Editions,
    pub sovereigns: Sovereigns,
    pub restructuring: Restructuring,
    pub cuts: Cuts,
    pub order: Order,
    pub full_lists: Cells,
    pub losses: Losses,
    pub loss_mistakes: Cells,
    pub left_out: LeftOut,
    pub report_places: ReportPlaces,
    pub entries: Entries,
    pub mail: Mail,
    pub netting: Netting,
}

impl Tally {
    pub fn new() -> Self {
        Tally {
            counts: Counts::default(),
            book_sizes: Cells::of_numbers(
                "sizes of books: bytes at 65,536, deals at 2,048",
                [65_535, 65_536, 65_537, 2047, 2048, 2049],
            ),
            answers: Answers::new(),
            days: days::cells(
                "days of accepted deals and refused lines: line, field, days, refusal",
            ),
            days_on_numbers: days::cells(
                "days in opening and adding on numbers: line, field, days, refusal",
            ),
            haircuts: Haircuts::new(),
            stored: Stored::new(),
            parties: Parties::new(),
            floors: floors::cells(
                "floors: of whom, class, less to more, edition; or what they change",
            ),
            changes: changes::cells("tables of 2023: beside which edition, what changes, by what"),
            first_lines: FirstLines::new(),
            editions: Editions::new(),
            sovereigns: Sovereigns::new(),
            restructuring: Restructuring::new(),
            cuts: Cuts::new(),
            order: Order::new(),
            full_lists: full_list::cells(
                "a seventeenth: line or adding, edition, line, behind which",
            ),
            losses: Losses::new(),
            loss_mistakes: loss_mistakes::cells(
                "what shows of losses: edition, kind, sort, mistake",
            ),
            left_out: LeftOut::new(),
            report_places: ReportPlaces::new(),
            entries: Entries::new(),
            mail: Mail::new(),
            netting: Netting::new(),
        }
    }

    /// Every family of cases that a run should meet.
    pub fn families(&self) -> Vec<&Cells> {
        let mut families = vec![&self.book_sizes];
        families.extend(self.answers.families());
        families.extend([&self.days, &self.days_on_numbers]);
        families.extend(self.haircuts.families());
        families.extend(self.stored.families());
        families.extend(self.parties.families());
        families.extend([&self.floors, &self.changes]);
        families.extend(self.first_lines.families());
        families.extend(self.editions.families());
        families.extend(self.sovereigns.families());
        families.extend(self.restructuring.families());
        families.extend(self.cuts.families());
        families.extend([&self.order.cells, &self.full_lists]);
        families.extend(self.losses.families());
        families.extend([&self.loss_mistakes]);
        families.extend(self.left_out.families());
        families.extend(self.report_places.families());
        families.extend(self.entries.families());
        families.extend(self.mail.families());
        families.extend(self.netting.families());
        families
    }

    /// A book with a header, whether it is answered or too long.
    pub fn size(&mut self, bytes: usize, deals: usize) {
        if (65_535..=65_537).contains(&bytes) {
            self.book_sizes.meet(&[bytes as u64]);
        }
        if (2047..=2049).contains(&deals) {
            self.book_sizes.meet(&[deals as u64]);
        }
    }

    /// A book of this edition that is answered, with its results.
    pub fn answered_book(&mut self, book: &[u8], edition: u64, results: &[u64]) {
        *self.counts.answered_books.entry(edition).or_default() += 1;
        let lines: Vec<&[u8]> = line::lines(book).collect();
        for line in &lines[1..] {
            *self.counts.lines.entry(named(line[0])).or_default() += 1;
        }
        for answer in results.chunks_exact(4) {
            self.counts.deals += 1;
            match answer[1] {
                0 => {
                    self.counts.accepted_deals += 1;
                    self.first_lines.meet(lines[0], true);
                }
                refusal => {
                    let until = &lines[..answer[2] as usize];
                    full_list::meet_line(&mut self.full_lists, until, edition, refusal);
                    self.refused_line(edition, until[until.len() - 1], refusal);
                }
            }
        }
    }

    /// A book that is refused as a whole.
    pub fn refused_book(&mut self, book: &[u8], refusal: u64) {
        if let Some(first) = line::lines(book).next().filter(|_| refusal == 9) {
            self.first_lines.meet(first, false);
        }
    }

    fn refused_line(&mut self, edition: u64, text: &[u8], refusal: u64) {
        self.answers.lines.meet(&[named(text[0]).into(), refusal]);
        match Line::read(text, edition) {
            Some(line) => {
                days::meet(&mut self.days, line.letter, &line.fields, refusal);
                self.sovereigns.meet_line(&line, edition, refusal);
                self.restructuring.meet_line(&line, edition, refusal);
            }
            None => self.first_lines.meet_line(edition, text),
        }
    }

    /// The report of an accepted deal.
    pub fn report(&mut self, record: &Record, report: &Report) {
        let terms = &record.terms;
        // A weight shows where it makes a difference.
        if report.rest > 0 {
            self.parties.counterparty(terms);
            floors::meet_counterparty(&mut self.floors, terms);
        }
        self.haircuts.meet_lent(terms, report);
        self.stored.meet(record, report);
        self.cuts.meet(record, report);
        self.order.meet(record, report);
        self.items(&Items::new(record, report));
        self.report_places.meet_past_counts(record);
        days::meet(&mut self.days, b'D', &terms.to_numbers(), 0);
        let counted = record.collateral.iter().zip(&report.collateral);
        for (item, outcome) in counted.take(record.collateral_count as usize) {
            self.collateral(terms, item, outcome);
        }
        let counted = record.guarantees.iter().zip(&report.guarantees);
        for (item, cover) in counted.take(record.guarantee_count as usize) {
            self.guarantee(terms, item, cover);
        }
        self.sovereigns.meet_past_count(record);
        self.restructuring.meet_reported(record);
    }

    /// What items lose and what is left out of them.
    fn items(&mut self, items: &Items) {
        self.losses.meet(items);
        loss_mistakes::meet(&mut self.loss_mistakes, items);
        self.left_out.meet(items);
        self.report_places.meet(items);
    }

    fn collateral(&mut self, terms: &Terms, item: &Collateral, outcome: &Outcome) {
        days::meet(&mut self.days, b'C', &item.to_numbers(), 0);
        match outcome {
            Outcome::Valued(_) => self.counts.valued_collateral += 1,
            Outcome::LeftOut { ground, .. } => self.answers.collateral_grounds.meet(&[ground.0]),
        }
        self.haircuts.meet_collateral(terms, item, outcome);
    }

    fn guarantee(&mut self, terms: &Terms, item: &HeldGuarantee, cover: &Cover) {
        let line = held::line(item);
        days::meet(&mut self.days, line.letter, &line.fields, 0);
        let met = match (cover.outcome, item.instrument) {
            (Outcome::Valued(_), instrument) => {
                match instrument {
                    GUARANTEE => self.counts.valued_guarantees += 1,
                    _ => self.counts.valued_swaps += 1,
                }
                cover.portion > 0
            }
            (Outcome::LeftOut { ground, .. }, instrument) => {
                let answers = &mut self.answers;
                match instrument {
                    GUARANTEE => answers.guarantee_grounds.meet(&[ground.0]),
                    _ => (answers.swap_grounds).meet(&[ground.0, instrument, terms.edition]),
                }
                [28, 29].contains(&ground.0)
            }
        };
        if met {
            self.parties.provider(terms, item);
            floors::meet_provider(&mut self.floors, terms, item);
        }
        if cover.portion > 0 {
            self.haircuts.meet_guarantee(terms, item);
        }
    }
}

#[cfg(test)]
mod tests {
    use super::*;

    #[test]
    fn every_family_is_demanded() {
        let tally = Tally::new();
        // Eight edges and a day above the limit, in nine fields.
        assert_eq!(tally.days.all(), 9 * 9);
        assert_eq!(tally.days_on_numbers.all(), 9 * 9);
        let families = tally.families();
        assert_eq!(
            families.len(),
            1 + 11 + 2 + 4 + 2 + 4 + 2 + 3 + 2 + 4 + 6 + 3 + 2 + 4 + 1 + 2 + 3 + 9 + 12 + 29
        );
        assert_eq!(
            families.iter().map(|cells| cells.all()).sum::<usize>(),
            16_171
        );
    }
}
