//! The same items entered otherwise: in another order, or one of them in two. The laws of both, on
//! records and in books, and the cases that a run should meet of them.

use hadlephoga::{BookReply, Record};
use reference::DealRead;

use crate::asked::{Asked, Reported};
use crate::book_splits;
use crate::cells::Cells;
use crate::compare::Difference;
use crate::entry_books;
use crate::entry_records;
use crate::line::count_deals;
use crate::other_splits;
use crate::random::Random;
use crate::record_splits;
use crate::sides::{from_reference, SIDES};
use crate::tally::Tally;

/// Beside the other sequences of a seed.
const STREAM: u64 = 0x6F72_6465_7273;

pub struct Entries {
    pub orders: Cells,
    pub portions: Cells,
    pub splits: Cells,
    pub full: Cells,
    /// By splits of items that may not be split.
    pub moved: Cells,
    pub lines: Cells,
    pub refused: Cells,
    pub whole: Cells,
    pub split_lines: Cells,
}

impl Entries {
    pub fn new() -> Self {
        Entries {
            orders: entry_records::order_cells("other orders: edition, lists, how, size"),
            portions: entry_records::portion_cells(
                "portions that an order moves: edition, whose is larger, smaller",
            ),
            splits: record_splits::split_cells(
                "splits of cash: edition, outcome, parts, first, second place",
            ),
            full: record_splits::full_cells(
                "splits on lists of 15 and 16: edition, outcome, which",
            ),
            moved: other_splits::cells(
                "figures that other splits move: edition, of what, which figure",
            ),
            lines: entry_books::line_cells("other orders of lines: edition, which lines, how"),
            refused: entry_books::refused_cells(
                "refusals in another order: edition, what becomes, list",
            ),
            whole: entry_books::whole_cells("refusals of books in another order"),
            split_lines: book_splits::cells("lines split: edition, what it does, outcome"),
        }
    }

    pub fn families(&self) -> [&Cells; 9] {
        [
            &self.orders,
            &self.portions,
            &self.splits,
            &self.full,
            &self.moved,
            &self.lines,
            &self.refused,
            &self.whole,
            &self.split_lines,
        ]
    }
}

/// A book as it was answered, and its accepted deals, to be entered otherwise once all else of the
/// same number is compared: what is wrong as it stands shows before.
pub struct Entered {
    pub random: Random,
    pub answered: (BookReply, Vec<u64>),
    pub deals: Vec<EnteredDeal>,
}

/// An accepted deal as it was reported.
pub struct EnteredDeal {
    pub random: Random,
    pub record: Record,
    pub report: Reported,
}

impl Entered {
    /// Of this book.
    pub fn otherwise(mut self, text: &[u8], tally: &mut Tally) -> Result<(), Difference> {
        let (reply, results) = &self.answered;
        book(
            &mut self.random,
            Asked::Both,
            text,
            (*reply, results),
            tally,
        )?;
        for EnteredDeal {
            random,
            record,
            report,
        } in &mut self.deals
        {
            deal(random, Asked::Both, record, report, tally)?;
        }
        Ok(())
    }
}

/// The record of an accepted deal, with its report.
pub fn deal(
    random: &mut Random,
    asked: Asked,
    record: &Record,
    report: &Reported,
    tally: &mut Tally,
) -> Result<(), Difference> {
    entry_records::orders(random, asked, record, report, tally)?;
    record_splits::splits(random, asked, record, report, tally)
}

/// A book, with its reply and results.
pub fn book(
    random: &mut Random,
    asked: Asked,
    book: &[u8],
    answered: (BookReply, &[u64]),
    tally: &mut Tally,
) -> Result<(), Difference> {
    entry_books::orders(random, asked, book, answered, tally)?;
    book_splits::splits(random, asked, book, answered, tally)
}

/// A book and its deals as each side answers and reports them, held to themselves alone.
pub fn alone(seed: u64, number: u64, text: &[u8], tally: &mut Tally) -> Result<(), Difference> {
    let deals = reference::deals(text).unwrap_or_default();
    let accepted = deals.iter().filter_map(|read| match read {
        DealRead::Accepted(record) => Some(from_reference(record)),
        DealRead::Refused { .. } => None,
    });
    let accepted = Vec::from_iter(accepted);
    for side in SIDES {
        // The same orders and splits on each.
        let random = &mut Random::new(seed ^ STREAM, number);
        let mut results = vec![0; count_deals(text) * 4];
        let reply = side.answer_book(text, &mut results);
        book(random, Asked::One(side), text, (reply, &results), tally)?;
        for record in &accepted {
            let report = side.report(&record.to_numbers());
            deal(random, Asked::One(side), record, &report, tally)?;
        }
    }
    tally.counts.accepted_deals += accepted.len() as u64;
    Ok(())
}

#[cfg(test)]
mod tests {
    use super::*;
    use crate::books;

    #[test]
    fn every_case_is_demanded() {
        let entries = Entries::new();
        let all = entries.families().map(Cells::all);
        assert_eq!(all, [108, 27, 360, 24, 18, 39, 18, 4, 21]);
    }

    #[test]
    fn each_side_holds_by_itself() {
        let tally = &mut Tally::new();
        for number in 6..200 {
            let text = books::book(271, number).bytes;
            assert!(alone(271, number, &text, tally).is_ok(), "{number}");
        }
        assert!(tally.counts.accepted_deals > 500);
        let families = tally.entries.families();
        assert!(families.iter().all(|cells| cells.unlisted().count() == 0));
    }
}
