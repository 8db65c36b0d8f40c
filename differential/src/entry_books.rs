//! Books with the lines behind each D in another order: who is accepted has the same answer, and
//! who is refused is refused, if by another number or at another line.

use hadlephoga::BookReply;

use crate::asked::Asked;
use crate::cells::{cell, Cells};
use crate::compare::Difference;
use crate::entry_orders::ORDERS;
use crate::heading::{edition_of, EDITIONS};
use crate::held::LETTERS;
use crate::laid::{is_collateral, put_order, Laid, MERGED};
use crate::random::Random;
use crate::tally::Tally;

/// Which lines an accepted deal has behind its D.
const COLLATERAL: u64 = 1;
const GUARANTEES: u64 = 2;
const BOTH: u64 = 3;

/// What becomes of a refusal: another number, neither of them that of a full list; the same one
/// at another line; a list that is full at another item; a full list in one order alone; all as
/// it was.
const ANOTHER_NUMBER: u64 = 1;
const ANOTHER_LINE: u64 = 2;
const ANOTHER_SEVENTEENTH: u64 = 3;
const FULL_OR_NOT: u64 = 4;
const AS_BEFORE: u64 = 5;

const FULL: u64 = 6;
/// What a book is refused for as a whole.
const OF_BOOKS: [u64; 4] = [9, 10, 12, 13];
/// How many books of a hundred are also answered into a list that is too short.
const SHORT: u64 = 10;

/// Of accepted deals, by edition, lines and how their order is changed.
pub fn line_cells(title: &'static str) -> Cells {
    let of = [COLLATERAL, GUARANTEES, BOTH].into_iter();
    let of = of.flat_map(|of| ORDERS.map(|how| [of, how]));
    let of = of.chain([[BOTH, MERGED]]);
    let cells = of.flat_map(|[of, how]| EDITIONS.map(|edition| cell(&[edition, of, how])));
    Cells::new(title, cells)
}

/// Of refused deals, by edition, what becomes of the refusal and, of full lists, whose.
pub fn refused_cells(title: &'static str) -> Cells {
    let of = [ANOTHER_NUMBER, ANOTHER_LINE, FULL_OR_NOT, AS_BEFORE].map(|what| [what, 0]);
    let full = [COLLATERAL, GUARANTEES].map(|list| [ANOTHER_SEVENTEENTH, list]);
    let of = of.into_iter().chain(full);
    let cells = of.flat_map(|[what, of]| EDITIONS.map(|edition| cell(&[edition, what, of])));
    Cells::new(title, cells)
}

/// Of books that are refused as a whole.
pub fn whole_cells(title: &'static str) -> Cells {
    Cells::of_numbers(title, OF_BOOKS)
}

/// The book, with its reply and results, in another order.
pub fn orders(
    random: &mut Random,
    asked: Asked,
    book: &[u8],
    (reply, results): (BookReply, &[u64]),
    tally: &mut Tally,
) -> Result<(), Difference> {
    let before = Laid::of(book);
    let mut after = before.clone();
    let hows = Vec::from_iter(before.deals.iter().map(|_| random.between(1, MERGED)));
    for (deal, how) in after.deals.iter_mut().zip(&hows) {
        put_order(random, *how, deal);
    }
    let text = after.text();
    if text == book {
        return Ok(());
    }
    let (other, answers) = asked.answer(&text, results.len(), tally)?;
    let compared = Compared {
        laid: [&before, &after],
        hows: &hows,
        results: [results, &answers],
    };
    if let Some(wrong) = compared.wrong([reply, other]) {
        let about = format!("another order of a book's lines: {wrong}");
        return Err(asked.broken_book(&about, &text, (reply, results), (other, answers)));
    }
    match edition_of(book).filter(|_| reply.refusal == 0) {
        Some(edition) => compared.meet(edition, tally),
        None => tally.entries.whole.meet(&[reply.refusal]),
    }
    short(random, asked, &text, (reply, results), tally)
}

/// Into a list that is too short: nothing else changes.
fn short(
    random: &mut Random,
    asked: Asked,
    text: &[u8],
    (reply, results): (BookReply, &[u64]),
    tally: &mut Tally,
) -> Result<(), Difference> {
    if results.is_empty() || reply.refusal != 0 || !random.percent(SHORT) {
        return Ok(());
    }
    let (other, _) = asked.answer(text, results.len() - 1, tally)?;
    if other.refusal != 13 {
        let about = "another order of a book's lines: a list that is too short will do";
        return Err(asked.broken_book(about, text, reply, other));
    }
    tally.entries.whole.meet(&[13]);
    Ok(())
}

struct Compared<'a> {
    laid: [&'a Laid<'a>; 2],
    hows: &'a [u64],
    results: [&'a [u64]; 2],
}

impl Compared<'_> {
    fn wrong(&self, [before, after]: [BookReply; 2]) -> Option<String> {
        if before != after {
            return Some(String::from("the book's reply is another"));
        }
        if before.refusal != 0 {
            return None;
        }
        let firsts = self.laid[0].firsts();
        let [rows, others] = self.results.map(|results| results.chunks_exact(4));
        rows.zip(others)
            .enumerate()
            .find_map(|(place, (row, other))| {
                let lines = firsts[place]..firsts[place] + self.laid[0].deals[place].len();
                let wrong = wrong_row([row, other], lines)?;
                Some(format!("deal {}: {wrong}", place + 1))
            })
    }

    fn meet(&self, edition: u64, tally: &mut Tally) {
        let firsts = self.laid[0].firsts();
        let [rows, others] = self.results.map(|results| results.chunks_exact(4));
        for (place, (row, other)) in rows.zip(others).enumerate() {
            let deals = self.laid.map(|laid| &laid.deals[place]);
            if deals[0] == deals[1] {
                continue;
            }
            let how = self.hows[place];
            if row[1] == 0 {
                let of = lines_of(deals[0]);
                tally.entries.lines.meet(&[edition, of, how]);
                continue;
            }
            let texts = [(deals[0], row), (deals[1], other)]
                .map(|(deal, row)| deal[row[2] as usize - firsts[place]]);
            let [what, of] = became([row, other], texts);
            tally.entries.refused.meet(&[edition, what, of]);
        }
    }
}

/// What is wrong with a deal's answer in another order of its further lines; all its lines have
/// these numbers.
fn wrong_row([before, after]: [&[u64]; 2], lines: std::ops::Range<usize>) -> Option<&'static str> {
    let is_elsewhere = |row: &[u64]| row[3] != 0 || !lines.contains(&(row[2] as usize));
    let is_first = |row: &[u64]| row[2] == lines.start as u64;
    let rows = [before, after];
    match rows.map(|row| row[1] != 0) {
        [true, true] if rows.into_iter().any(is_elsewhere) => Some("refused at no line of it"),
        _ if before == after => None,
        [false, false] => Some("a figure moves"),
        [false, true] => Some("refused, and was not before"),
        [true, false] => Some("accepted, and was not before"),
        _ if before[0] != after[0] => Some("the serial is another"),
        _ if rows.into_iter().any(is_first) => Some("its D line is refused in one order alone"),
        _ => None,
    }
}

/// An accepted deal has no other letters.
fn lines_of(deal: &[&[u8]]) -> u64 {
    let collateral = deal[1..].iter().filter(|line| is_collateral(line)).count();
    match collateral {
        0 => GUARANTEES,
        all if all == deal.len() - 1 => COLLATERAL,
        _ => BOTH,
    }
}

/// What becomes of a refusal, with the texts of both refused lines.
fn became([before, after]: [&[u64]; 2], texts: [&[u8]; 2]) -> [u64; 2] {
    let list = match LETTERS.contains(&texts[1][0]) {
        true => GUARANTEES,
        false => COLLATERAL,
    };
    match [before[1], after[1]] {
        [FULL, FULL] if texts[0] != texts[1] => [ANOTHER_SEVENTEENTH, list],
        [one, other] if one != other && [one, other].contains(&FULL) => [FULL_OR_NOT, 0],
        [one, other] if one != other => [ANOTHER_NUMBER, 0],
        _ if before[2] != after[2] => [ANOTHER_LINE, 0],
        _ => [AS_BEFORE, 0],
    }
}

#[cfg(test)]
mod tests {
    use super::*;
    use crate::books;
    use crate::line::count_deals;
    use crate::sides::Side;

    #[test]
    fn every_case_is_listed() {
        assert_eq!(line_cells("").all(), 3 * (3 * 4 + 1));
        assert_eq!(refused_cells("").all(), 3 * 6);
        assert_eq!(whole_cells("").all(), 4);
    }

    #[test]
    fn rows_that_no_order_makes() {
        let wrong =
            |before: [u64; 4], after: [u64; 4]| wrong_row([&before, &after], 5..9).is_some();
        let accepted = [2, 0, 70, 35];
        assert!(!wrong(accepted, accepted));
        for after in [[2, 0, 70, 34], [2, 0, 71, 35], [3, 0, 70, 35], [2, 5, 6, 0]] {
            assert!(wrong(accepted, after));
            assert!(wrong(after, accepted));
        }
        let refused = [2, 5, 6, 0];
        for after in [[2, 5, 8, 0], [2, 11, 6, 0], [2, 6, 7, 0]] {
            assert!(!wrong(refused, after));
        }
        for after in [
            [2, 5, 5, 0],
            [2, 5, 9, 0],
            [2, 5, 4, 0],
            [2, 5, 6, 1],
            [3, 5, 6, 0],
        ] {
            assert!(wrong(refused, after));
        }
        assert!(wrong([2, 5, 5, 0], refused) && !wrong([2, 5, 5, 0], [2, 5, 5, 0]));
        assert!(wrong([2, 5, 9, 0], [2, 5, 9, 0]) && wrong([2, 5, 6, 1], [2, 5, 6, 1]));
    }

    #[test]
    fn what_becomes_of_refusals() {
        let of =
            |before: [u64; 4], after: [u64; 4], texts: [&[u8]; 2]| became([&before, &after], texts);
        let (one, other) = (b"C1\n" as &[u8], b"S2\n" as &[u8]);
        assert_eq!(
            of([1, 5, 6, 0], [1, 3, 6, 0], [one, other]),
            [ANOTHER_NUMBER, 0]
        );
        assert_eq!(
            of([1, 5, 6, 0], [1, 5, 7, 0], [one, one]),
            [ANOTHER_LINE, 0]
        );
        assert_eq!(of([1, 5, 6, 0], [1, 5, 6, 0], [one, one]), [AS_BEFORE, 0]);
        assert_eq!(
            of([1, 6, 6, 0], [1, 5, 7, 0], [one, other]),
            [FULL_OR_NOT, 0]
        );
        let full = of([1, 6, 6, 0], [1, 6, 6, 0], [one, other]);
        assert_eq!(full, [ANOTHER_SEVENTEENTH, GUARANTEES]);
        let full = of([1, 6, 6, 0], [1, 6, 6, 0], [other, one]);
        assert_eq!(full, [ANOTHER_SEVENTEENTH, COLLATERAL]);
        assert_eq!(
            of([1, 6, 6, 0], [1, 6, 7, 0], [one, one]),
            [ANOTHER_LINE, 0]
        );
    }

    #[test]
    fn orders_of_books_hold() {
        let asked = Asked::Both;
        let tally = &mut Tally::new();
        for number in 0..400 {
            let book = books::book(241, number).bytes;
            let mut results = vec![0; count_deals(&book) * 4];
            let reply = Side::Proved.answer_book(&book, &mut results);
            let random = &mut Random::new(241, number);
            let held = orders(random, asked, &book, (reply, &results), tally);
            assert!(held.is_ok(), "{number}");
        }
        for cells in tally.entries.families() {
            assert_eq!(cells.unlisted().count(), 0, "{}", cells.title);
        }
        assert!(tally.entries.lines.met() > 30);
    }

    /// A wrong answer, as if it had been given first.
    #[test]
    fn a_figure_that_moves_is_told() {
        let tally = &mut Tally::new();
        let random = &mut Random::new(251, 1);
        let deal = b"D\t900\t3\t6\t978\t3\t1\t90\t1\t0\t0\n";
        let cash = b"C\t50\t1\t0\t0\t978\t90\t90\t1\t1\t1\t0\n";
        let more = b"C\t60\t1\t0\t0\t978\t90\t90\t1\t1\t1\t0\n";
        let book = [b"CRM\t1\n" as &[u8], deal, cash, more].concat();
        let mut results = vec![0; 4];
        let reply = Side::Proved.answer_book(&book, &mut results);
        assert_eq!(results, [1, 0, 790, 1185]);
        let mut told = |results: &[u64]| {
            let told = (0..20)
                .filter_map(|_| orders(random, Asked::Both, &book, (reply, results), tally).err());
            Vec::from_iter(told.map(|difference| difference.about))
        };
        assert!(told(&results).is_empty());
        results[3] += 1;
        let about = "another order of a book's lines: deal 1: a figure moves";
        assert!(told(&results).contains(&about.to_string()));
    }
}
