//! The calls that are measured, each under a name that a profiler finds.

use std::hint::black_box;
use std::path::Path;

use hadlephoga::BookReply;

use crate::line::count_deals;
use crate::sides::Side;

#[no_mangle]
#[inline(never)]
pub fn measured_proved(book: &[u8], results: &mut [u64]) -> BookReply {
    Side::Proved.answer_book(book, results)
}

#[no_mangle]
#[inline(never)]
pub fn measured_reference(book: &[u8], results: &mut [u64]) -> BookReply {
    Side::Reference.answer_book(book, results)
}

pub fn answer(side: Side, book: &[u8], results: &mut [u64]) -> BookReply {
    match side {
        Side::Proved => measured_proved(black_box(book), black_box(results)),
        Side::Reference => measured_reference(black_box(book), black_box(results)),
    }
}

/// Answers the book in a file so many times with one implementation.
pub fn once(side: Side, file: &Path, calls: u64) -> Result<(), String> {
    let book = std::fs::read(file).map_err(|error| format!("{}: {error}", file.display()))?;
    let mut results = vec![0; count_deals(&book) * 4];
    for _ in 0..calls {
        black_box(answer(side, &book, &mut results));
    }
    Ok(())
}
