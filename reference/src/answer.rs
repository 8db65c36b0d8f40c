//! Answering a book (01: The four operations, Answering a book).

use crate::book::{body, deal_count, read_deals, RefusedLine};
use crate::record::Record;
use crate::refusal;
use crate::reporting::evaluated;

/// Numbers in the results list for each deal.
pub(crate) const NUMBERS_A_DEAL: usize = 4;

/// Reply to a book: the refusal or 0, and the count of deals written.
#[derive(Clone, Copy, Debug, PartialEq, Eq)]
pub struct BookReply {
    pub refusal: u64,
    pub deals: usize,
}

/// A deal of an accepted book as its lines leave it.
#[derive(Clone, Debug, PartialEq, Eq)]
pub enum DealRead {
    Accepted(Box<Record>),
    /// The first refused line; the header is line 1.
    Refused {
        refusal: u64,
        line: u64,
    },
}

/// Answers a book: four numbers a deal are written from the front of `results`
/// and nothing behind them. A refused book leaves the list untouched.
pub fn answer_book(book: &[u8], results: &mut [u64]) -> BookReply {
    match answered(book, results) {
        Ok(deals) => BookReply { refusal: 0, deals },
        Err(refusal) => BookReply { refusal, deals: 0 },
    }
}

/// For each deal of an accepted book the record that it ends with, or its first
/// refused line. As no results list is lent, refusal 13 cannot fall.
pub fn deals(book: &[u8]) -> Result<Vec<DealRead>, u64> {
    let deals = read_deals(body(book)?).map(|deal| match deal {
        Ok(record) => DealRead::Accepted(Box::new(record)),
        Err(RefusedLine { refusal, line }) => DealRead::Refused { refusal, line },
    });
    Ok(deals.collect())
}

/// The deals are counted before the first one is written, for 13 to leave the
/// list untouched.
fn answered(book: &[u8], results: &mut [u64]) -> Result<usize, u64> {
    let body = body(book)?;
    let deals = deal_count(body);
    let lent = results.get_mut(..deals * NUMBERS_A_DEAL);
    let places = lent
        .ok_or(refusal::RESULTS)?
        .chunks_exact_mut(NUMBERS_A_DEAL);
    for ((serial, deal), place) in (1..).zip(read_deals(body)).zip(places) {
        place.copy_from_slice(&four_numbers(serial, deal));
    }
    Ok(deals)
}

fn four_numbers(serial: u64, deal: Result<Record, RefusedLine>) -> [u64; NUMBERS_A_DEAL] {
    match deal {
        Ok(record) => {
            let report = evaluated(&record);
            [serial, 0, report.exposure, report.weighted]
        }
        Err(RefusedLine { refusal, line }) => [serial, refusal, line, 0],
    }
}
