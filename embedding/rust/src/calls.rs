//! The calls, and the only unsafe code. Each compares the layouts first.

use crate::layout::compare_once;
use crate::{
    Collateral, Guarantee, Record, Refusal, Report, Swap, Terms, RECORD_LENGTH, REPORT_LENGTH,
};

/// Bytes of the longest book.
pub const BOOK_LIMIT: usize = 65_536;
/// Numbers that answer a deal of a book.
pub const ANSWER_LENGTH: usize = 4;

// The declarations of include/hadlephoga.h.
extern "C" {
    fn hadlephoga_layout() -> u64;
    fn hadlephoga_answer_book(
        book: *const u8,
        book_length: usize,
        results: *mut u64,
        results_length: usize,
        deals: *mut u64,
    ) -> u64;
    fn hadlephoga_repair_book(
        book: *const u8,
        book_length: usize,
        repaired: *mut u8,
        repaired_length: usize,
        altered: *mut u64,
        altered_length: usize,
        bytes: *mut u64,
        lines: *mut u64,
    ) -> u64;
    fn hadlephoga_open_deal(
        terms: *const u64,
        terms_length: usize,
        record: *mut u64,
        record_length: usize,
    ) -> u64;
    fn hadlephoga_add_collateral(
        record: *mut u64,
        record_length: usize,
        item: *const u64,
        item_length: usize,
    ) -> u64;
    fn hadlephoga_add_guarantee(
        record: *mut u64,
        record_length: usize,
        item: *const u64,
        item_length: usize,
    ) -> u64;
    fn hadlephoga_add_swap(
        record: *mut u64,
        record_length: usize,
        item: *const u64,
        item_length: usize,
    ) -> u64;
    fn hadlephoga_report_deal(
        record: *const u64,
        record_length: usize,
        report: *mut u64,
        report_length: usize,
    ) -> u64;
    fn hadlephoga_net_set(
        set: *const u64,
        set_length: usize,
        exposure: *mut u64,
        rwa: *mut u64,
    ) -> u64;
}

/// The number of the layout that the linked library has.
pub fn layout() -> u64 {
    // SAFETY: it takes nothing and gives a number.
    unsafe { hadlephoga_layout() }
}

/// The reply to a book: its refusal or 0, and the count of deals written.
#[derive(Clone, Copy, Debug, PartialEq, Eq)]
pub struct BookReply {
    pub refusal: u64,
    pub deals: u64,
}

/// Answers a book: the count of its deals, with four numbers a deal written
/// from the front of `results` and nothing behind them. The four are the
/// serial from 1; the refusal of the deal's first refused line, or 0; E*, or
/// that line's number; the weighted amount, or 0.
///
/// A book is refused as a whole with 10, 9, 12 or 13 (too few numbers in
/// `results`), which leaves `results` untouched.
pub fn answer_book(book: &[u8], results: &mut [u64]) -> Result<usize, Refusal> {
    match answer_book_numbers(book, results) {
        // Four numbers a deal lie in `results`, so the count is an index.
        BookReply { refusal: 0, deals } => Ok(deals as usize),
        BookReply { refusal, .. } => Err(Refusal(refusal)),
    }
}

/// [`answer_book`] with the reply as the library gives it.
pub fn answer_book_numbers(book: &[u8], results: &mut [u64]) -> BookReply {
    compare_once();
    // No count of deals: one that is not written would show.
    let mut deals = u64::MAX;
    // SAFETY: each pointer and length are those of a slice that lives through
    // the call; `results` and `deals` are borrowed alone, so nothing overlaps.
    // The library reads and writes inside the lengths it is given.
    let refusal = unsafe {
        hadlephoga_answer_book(
            book.as_ptr(),
            book.len(),
            results.as_mut_ptr(),
            results.len(),
            &mut deals,
        )
    };
    BookReply { refusal, deals }
}

/// The reply to a mailed book: its refusal or 0, and the counts of bytes and of
/// line numbers written.
#[derive(Clone, Copy, Debug, PartialEq, Eq)]
pub struct RepairReply {
    pub refusal: u64,
    pub bytes: u64,
    pub lines: u64,
}

/// Repairs a book that came by mail: each run of spaces becomes one tab, every
/// carriage return of a run that ends at a line feed is dropped, and any other byte
/// stays. The repaired book is written from the front of `repaired`, the numbers of
/// the altered lines, from 1 and rising, from the front of `altered`, and nothing
/// behind either. As many bytes as the book has, and as many numbers as it has
/// lines, are always enough.
///
/// A book is refused with 10, else 20 (too few bytes in `repaired`), else 41 (too
/// few numbers in `altered`), which leaves both untouched.
pub fn repair_book_numbers(book: &[u8], repaired: &mut [u8], altered: &mut [u64]) -> RepairReply {
    compare_once();
    // No counts, as in `answer_book_numbers`.
    let (mut bytes, mut lines) = (u64::MAX, u64::MAX);
    // SAFETY: as in `answer_book_numbers`, with `repaired`, `altered` and both
    // counts borrowed alone.
    let refusal = unsafe {
        hadlephoga_repair_book(
            book.as_ptr(),
            book.len(),
            repaired.as_mut_ptr(),
            repaired.len(),
            altered.as_mut_ptr(),
            altered.len(),
            &mut bytes,
            &mut lines,
        )
    };
    RepairReply {
        refusal,
        bytes,
        lines,
    }
}

/// Opens a deal on terms given as numbers, in the layout of
/// [`Terms::to_numbers`], into a list in the layout of [`Record::to_numbers`].
/// Returns 13 where `record` has fewer numbers than a record (nothing is
/// written), else 11 where `terms` has not exactly theirs, else 1 to 5 or 0. The
/// record is written from the front, zeros with a refusal, and nothing behind it.
pub fn open_numbers(terms: &[u64], record: &mut [u64]) -> u64 {
    compare_once();
    // SAFETY: each pointer and length are those of a slice that lives through
    // the call; `record` is borrowed alone, so it does not overlap `terms`.
    // The library reads and writes inside the lengths it is given.
    unsafe {
        hadlephoga_open_deal(
            terms.as_ptr(),
            terms.len(),
            record.as_mut_ptr(),
            record.len(),
        )
    }
}

/// Opens a deal with empty lists; refused with 1 to 5.
pub fn open(terms: &Terms) -> Result<Record, Refusal> {
    let mut numbers = [0; RECORD_LENGTH];
    match open_numbers(&terms.to_numbers(), &mut numbers) {
        0 => Ok(Record::from_numbers(&numbers)),
        refusal => Err(Refusal(refusal)),
    }
}

/// Adds an item, given as numbers in the layout of [`Collateral::to_numbers`],
/// to a record of numbers. Returns 11 where `item` has not exactly its numbers,
/// else 40 where `record` has not exactly a record's or is not accepted, else 6,
/// 1 to 5, 7, 8 or 0. With a refusal `record` is untouched.
pub fn add_collateral_numbers(record: &mut [u64], item: &[u64]) -> u64 {
    compare_once();
    // SAFETY: as in `open_numbers`, with `record` borrowed alone.
    unsafe {
        hadlephoga_add_collateral(record.as_mut_ptr(), record.len(), item.as_ptr(), item.len())
    }
}

/// [`add_collateral_numbers`] of a guarantee, in the layout of
/// [`Guarantee::to_numbers`].
pub fn add_guarantee_numbers(record: &mut [u64], item: &[u64]) -> u64 {
    compare_once();
    // SAFETY: as in `open_numbers`, with `record` borrowed alone.
    unsafe {
        hadlephoga_add_guarantee(record.as_mut_ptr(), record.len(), item.as_ptr(), item.len())
    }
}

/// [`add_collateral_numbers`] of a swap, in the layout of [`Swap::to_numbers`],
/// into the list of guarantees.
pub fn add_swap_numbers(record: &mut [u64], item: &[u64]) -> u64 {
    compare_once();
    // SAFETY: as in `open_numbers`, with `record` borrowed alone.
    unsafe { hadlephoga_add_swap(record.as_mut_ptr(), record.len(), item.as_ptr(), item.len()) }
}

/// Adds an item of collateral; refused with 40, 6, 1 to 5, 7 or 8, which leaves
/// the record as it was.
pub fn add_collateral(record: &mut Record, item: &Collateral) -> Result<(), Refusal> {
    let mut numbers = record.to_numbers();
    let refusal = add_collateral_numbers(&mut numbers, &item.to_numbers());
    added(record, &numbers, refusal)
}

/// Adds a guarantee; refused as [`add_collateral`] is, with 6 as [`add_swap`] is.
pub fn add_guarantee(record: &mut Record, item: &Guarantee) -> Result<(), Refusal> {
    let mut numbers = record.to_numbers();
    let refusal = add_guarantee_numbers(&mut numbers, &item.to_numbers());
    added(record, &numbers, refusal)
}

/// Adds a swap; refused as [`add_collateral`] is, with 6 where guarantees and
/// swaps together are sixteen.
pub fn add_swap(record: &mut Record, item: &Swap) -> Result<(), Refusal> {
    let mut numbers = record.to_numbers();
    let refusal = add_swap_numbers(&mut numbers, &item.to_numbers());
    added(record, &numbers, refusal)
}

fn added(record: &mut Record, numbers: &[u64; RECORD_LENGTH], refusal: u64) -> Result<(), Refusal> {
    if refusal != 0 {
        return Err(Refusal(refusal));
    }
    *record = Record::from_numbers(numbers);
    Ok(())
}

/// Reports a deal given as numbers, in the layout of [`Record::to_numbers`],
/// into a list in the layout of [`Report::from_numbers`]. Returns 13 where
/// `report` has fewer numbers than a report (nothing is written), else 40 where
/// `record` has not exactly a record's or is not accepted (a report of zeros is
/// written), else 0.
pub fn report_numbers(record: &[u64], report: &mut [u64]) -> u64 {
    compare_once();
    // SAFETY: each pointer and length are those of a slice that lives through
    // the call; `report` is borrowed alone, so it does not overlap `record`.
    // The library reads and writes inside the lengths it is given.
    unsafe {
        hadlephoga_report_deal(
            record.as_ptr(),
            record.len(),
            report.as_mut_ptr(),
            report.len(),
        )
    }
}

/// Reports a deal; refused with 40 where the record is not accepted.
pub fn report(record: &Record) -> Result<Report, Refusal> {
    let mut numbers = [0; REPORT_LENGTH];
    match report_numbers(&record.to_numbers(), &mut numbers) {
        0 => Ok(Report::from_numbers(&numbers)),
        refusal => Err(Refusal(refusal)),
    }
}

/// The reply to a netting set: its refusal or 0, E* and the risk-weighted amount.
/// Both are 0 beside a refusal.
#[derive(Clone, Copy, Debug, PartialEq, Eq)]
pub struct NettingReply {
    pub refusal: u64,
    pub exposure: u64,
    pub rwa: u64,
}

/// Nets a set given as numbers, in the layout of
/// [`NettingSet::to_numbers`](crate::NettingSet::to_numbers). The refusal is 11 where
/// they are not six and seven for each position, else 2, 3, 4 or 5 of the six, else 6
/// where there are more than 32 positions, else 1, 2, 3, 4 or 5 of the first position
/// that has one, else 15, 16 or 17 of all positions, else 0.
pub fn net_set_numbers(set: &[u64]) -> NettingReply {
    compare_once();
    // No figures, as in `answer_book_numbers`.
    let (mut exposure, mut rwa) = (u64::MAX, u64::MAX);
    // SAFETY: as in `answer_book_numbers`, with both figures borrowed alone.
    let refusal = unsafe { hadlephoga_net_set(set.as_ptr(), set.len(), &mut exposure, &mut rwa) };
    NettingReply {
        refusal,
        exposure,
        rwa,
    }
}
