//! Time of both implementations on full mailed texts, in the same process.

use std::hint::black_box;
use std::time::Instant;

use hadlephoga::BOOK_LIMIT;

use crate::mail_laws::Due;
use crate::mangled::{widened, Widths};
use crate::random::Random;
use crate::shapes;
use crate::sides::{Side, SIDES};
use crate::table::grouped;

/// Rounds for each round of books, for these are short.
const ROUNDS: u64 = 16;

pub fn run(rounds: u64) -> Result<(), String> {
    let rounds = rounds * ROUNDS;
    println!("Repairing a mailed text of 65,536 bytes: the best of {rounds} rounds, in turns");
    println!(
        "{:<28}{:>9}{:>9}{:>14}{:>14}{:>7}",
        "text of", "left", "altered", "proved ns", "reference ns", "ratio"
    );
    for (name, text) in texts()? {
        let due = Due::of(&text);
        let [proved, reference] = best(&text, due, rounds)?;
        println!(
            "{name:<28}{:>9}{:>9}{:>14}{:>14}{:>7.2}",
            due.bytes,
            due.lines,
            grouped(proved),
            grouped(reference),
            proved as f64 / reference as f64
        );
    }
    Ok(())
}

/// A book with several items a deal, as mail programs leave it; and next to nothing left.
fn texts() -> Result<[(&'static str, Vec<u8>); 5], String> {
    let books = shapes::full(&[1]).into_iter().flatten();
    let book = books.max_by_key(|book| book.items).map(|book| book.book);
    let book = book.ok_or("no book is measured")?;
    let mangled = |spaces, returns| {
        let widths = Widths { spaces, returns };
        let text = widened(&mut Random::new(1, 1), &book, widths);
        text.into_iter().cycle().take(BOOK_LIMIT).collect()
    };
    Ok([
        ("a clean book", mangled([0, 0], [0, 0])),
        ("1 space a tab, CR LF", mangled([1, 1], [1, 1])),
        ("1 to 8 spaces, 0 to 3 CR", mangled([1, 8], [0, 3])),
        ("spaces alone", vec![b' '; BOOK_LIMIT]),
        ("returns alone", vec![b'\r'; BOOK_LIMIT]),
    ])
}

/// Nanoseconds of each side.
fn best(text: &[u8], due: Due, rounds: u64) -> Result<[u64; 2], String> {
    let mut best = [u64::MAX; 2];
    let mut lent = SIDES.map(|_| (vec![0; due.bytes], vec![0; due.lines]));
    for _ in 0..rounds {
        for ((side, best), (repaired, altered)) in SIDES.iter().zip(&mut best).zip(&mut lent) {
            *best = (*best).min(timed(*side, text, repaired, altered));
        }
    }
    match lent[0] == lent[1] {
        true => Ok(best),
        false => Err("the two repair a text differently".into()),
    }
}

fn timed(side: Side, text: &[u8], repaired: &mut [u8], altered: &mut [u64]) -> u64 {
    let start = Instant::now();
    black_box(side.repair_book(black_box(text), black_box(repaired), black_box(altered)));
    start.elapsed().as_nanos() as u64
}
