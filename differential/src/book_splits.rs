//! Books in which accepted deals have one line C in two: their answers stay, and where the list
//! is full its seventeenth line is refused.

use hadlephoga::{BookReply, Collateral, Terms, BOOK_LIMIT, ITEMS};

use crate::asked::Asked;
use crate::cells::{cell, Cells};
use crate::compare::Difference;
use crate::heading::{edition_of, EDITIONS};
use crate::laid::Laid;
use crate::line::Line;
use crate::random::Random;
use crate::split_items::{may_be_split, OUTCOMES};
use crate::splits::{amounts, PARTS};
use crate::tally::Tally;

/// What a split does: nothing to the deal's answer, whatever became of the item; the same where
/// the list just has room; it is refused; it moves the refused line of a later deal.
const FITS: u64 = 1;
const JUST_FITS: u64 = 2;
const FULL: u64 = 3;
const MOVES_LINE: u64 = 4;

/// The refusal of a full list.
const FULL_REFUSED: u64 = 6;

/// By edition and what the split does, where it fits also by what became of the item.
pub fn cells(title: &'static str) -> Cells {
    let of = OUTCOMES.map(|outcome| [FITS, outcome]).into_iter();
    let of = of.chain([JUST_FITS, FULL, MOVES_LINE].map(|what| [what, 0]));
    let cells = of.flat_map(|[what, of]| EDITIONS.map(|edition| cell(&[edition, what, of])));
    Cells::new(title, cells)
}

/// A line of an accepted deal that may be split.
struct Found {
    place: usize,
    line: Line,
    outcome: u64,
}

/// Those of a deal of this edition.
fn found(edition: u64, deal: &[&[u8]]) -> Vec<Found> {
    fn numbers<const LENGTH: usize>(line: &Line) -> [u64; LENGTH] {
        std::array::from_fn(|place| line.fields[place])
    }
    let Some(opening) = Line::read(deal[0], edition) else {
        return Vec::new();
    };
    let terms = Terms::from_numbers(&numbers(&opening));
    let lines = deal.iter().enumerate();
    let lines = lines.filter(|(_, text)| text.starts_with(b"C\t"));
    let lines = lines.filter_map(|(place, text)| {
        let line = Line::read(text, edition)?;
        let item = Collateral::from_numbers(&numbers(&line));
        let outcome = match [item.lawful, item.unrelated, item.unreflected] {
            [0, ..] => OUTCOMES[1],
            [_, 0, _] => OUTCOMES[2],
            [.., 0] => OUTCOMES[3],
            _ => OUTCOMES[0],
        };
        let found = Found {
            place,
            line,
            outcome,
        };
        may_be_split(&terms, &item).then_some(found)
    });
    lines.collect()
}

/// A deal with one of its lines in two, the second part anywhere behind the D.
fn split(random: &mut Random, edition: u64, deal: &[&[u8]], found: &Found) -> Vec<Vec<u8>> {
    let parts = random.pick(&PARTS);
    let amounts = amounts(random, parts, found.line.fields[0]);
    let [first, second] = amounts.map(|amount| {
        let mut line = found.line.clone();
        line.fields[0] = amount;
        line.text(edition)
    });
    let mut lines = Vec::from_iter(deal.iter().map(|line| line.to_vec()));
    lines[found.place] = first;
    let at = random.between(1, lines.len() as u64) as usize;
    lines.insert(at, second);
    lines
}

/// A book with lines split, what is to be answered, and what that shows.
#[derive(Default)]
struct Parted {
    text: Vec<u8>,
    due: Vec<u64>,
    shown: Vec<[u64; 2]>,
    /// How many lines it has more than before.
    added: u64,
}

impl Parted {
    /// A deal as it is; its refused line has moved on.
    fn leave(&mut self, deal: &[&[u8]], row: [u64; 4]) {
        let [serial, refusal, line, last] = row;
        self.text.extend(deal.concat());
        if refusal == 0 || self.added == 0 {
            self.due.extend(row);
            return;
        }
        self.due.extend([serial, refusal, line + self.added, last]);
        self.shown.push([MOVES_LINE, 0]);
    }

    /// A deal with this line split, whose first line had this number.
    fn put(&mut self, lines: &[Vec<u8>], row: [u64; 4], found: &Found, first: usize) {
        let collateral = lines.iter().enumerate().filter(|(_, line)| line[0] == b'C');
        let places = Vec::from_iter(collateral.map(|(place, _)| place));
        if let Some(place) = places.get(ITEMS) {
            let line = (first + place) as u64 + self.added;
            self.due.extend([row[0], FULL_REFUSED, line, 0]);
            self.shown.push([FULL, 0]);
        } else {
            self.due.extend(row);
            // E* would show what either part is worth, or were it taken.
            if row[2] > 0 && found.line.fields[0] > 1 {
                self.shown.push([FITS, found.outcome]);
                self.shown
                    .extend((places.len() == ITEMS).then_some([JUST_FITS, 0]));
            }
        }
        self.text.extend(lines.concat());
        self.added += 1;
    }
}

/// Each accepted deal that has such a line gets one split; later refused lines move on.
fn parted(random: &mut Random, edition: u64, book: &[u8], results: &[u64]) -> Parted {
    let laid = Laid::of(book);
    let mut parted = Parted {
        text: laid.before.concat(),
        ..Parted::default()
    };
    let rows = results
        .chunks_exact(4)
        .map(|row| [row[0], row[1], row[2], row[3]]);
    for ((deal, row), first) in laid.deals.iter().zip(rows).zip(laid.firsts()) {
        let lines = match row[1] {
            0 => found(edition, deal),
            _ => Vec::new(),
        };
        if lines.is_empty() {
            parted.leave(deal, row);
            continue;
        }
        let found = &lines[random.index(lines.len())];
        let lines = split(random, edition, deal, found);
        parted.put(&lines, row, found, first);
    }
    parted
}

/// The book, with its reply and results, with lines split.
pub fn splits(
    random: &mut Random,
    asked: Asked,
    book: &[u8],
    (reply, results): (BookReply, &[u64]),
    tally: &mut Tally,
) -> Result<(), Difference> {
    let Some(edition) = edition_of(book).filter(|_| reply.refusal == 0) else {
        return Ok(());
    };
    let Parted {
        text, due, shown, ..
    } = parted(random, edition, book, results);
    if text == book || text.len() > BOOK_LIMIT {
        return Ok(());
    }
    let (other, answers) = asked.answer(&text, results.len(), tally)?;
    if other != reply || answers != due {
        let mut rows = answers.chunks_exact(4).zip(due.chunks_exact(4));
        let place = rows.position(|(row, due)| row != due).unwrap_or(0);
        let about = format!("lines C split: deal {} is answered otherwise", place + 1);
        let said = [&due, &answers].map(|all| all.chunks_exact(4).nth(place).map(<[u64]>::to_vec));
        let [due, answer] = said;
        return Err(asked.broken_book(&about, &text, (reply, due), (other, answer)));
    }
    for [what, of] in shown {
        tally.entries.split_lines.meet(&[edition, what, of]);
    }
    Ok(())
}

#[cfg(test)]
mod tests {
    use super::*;
    use crate::books;
    use crate::line::count_deals;
    use crate::sides::Side;

    #[test]
    fn every_case_is_listed() {
        assert_eq!(cells("").all(), 3 * (4 + 3));
    }

    #[test]
    fn splits_of_books_hold() {
        let asked = Asked::Both;
        let tally = &mut Tally::new();
        for number in 6..700 {
            let book = books::book(257, number).bytes;
            let mut results = vec![0; count_deals(&book) * 4];
            let reply = Side::Proved.answer_book(&book, &mut results);
            let random = &mut Random::new(257, number);
            let held = splits(random, asked, &book, (reply, &results), tally);
            assert!(held.is_ok(), "{number}");
        }
        let met = &tally.entries.split_lines;
        assert!(met.met() > 12 && met.unlisted().count() == 0);
    }

    const DEAL: &[u8] = b"D\t900\t3\t6\t978\t3\t1\t90\t1\t0\t0\n";
    const CASH: &[u8] = b"C\t50\t1\t0\t0\t978\t90\t90\t1\t1\t1\t0\n";

    fn answered(book: &[u8]) -> (BookReply, Vec<u64>) {
        let mut results = vec![0; count_deals(book) * 4];
        let reply = Side::Proved.answer_book(book, &mut results);
        (reply, results)
    }

    #[test]
    fn what_is_due_of_later_deals_and_of_full_lists() {
        let book = [b"CRM\t1\n" as &[u8], DEAL, CASH, b"D\t1\n"].concat();
        let (_, results) = answered(&book);
        let random = &mut Random::new(263, 1);
        let Parted { due, shown, .. } = parted(random, 1, &book, &results);
        assert_eq!(due, [1, 0, 850, 1275, 2, 11, 5, 0]);
        assert_eq!(shown, [[FITS, 0], [MOVES_LINE, 0]]);
        let book = [b"CRM\t1\n" as &[u8], DEAL, &CASH.repeat(16)].concat();
        let (_, results) = answered(&book);
        let Parted { due, shown, .. } = parted(random, 1, &book, &results);
        assert_eq!(due, [1, FULL_REFUSED, 19, 0]);
        assert_eq!(shown, [[FULL, 0]]);
        let book = [b"CRM\t1\n" as &[u8], DEAL, &CASH.repeat(15)].concat();
        let (_, results) = answered(&book);
        let Parted { due, shown, .. } = parted(random, 1, &book, &results);
        assert_eq!(due, results);
        assert_eq!(shown, [[FITS, 0], [JUST_FITS, 0]]);
    }

    /// A wrong answer, as if it had been given first.
    #[test]
    fn a_figure_that_moves_is_told() {
        let book = [b"CRM\t1\n" as &[u8], DEAL, CASH].concat();
        let (reply, mut results) = answered(&book);
        let random = &mut Random::new(269, 1);
        let tally = &mut Tally::new();
        assert!(splits(random, Asked::Both, &book, (reply, &results), tally).is_ok());
        results[2] += 1;
        let told = splits(random, Asked::Both, &book, (reply, &results), tally);
        let about = "lines C split: deal 1 is answered otherwise";
        assert!(told.is_err_and(|difference| difference.about == about));
    }
}
