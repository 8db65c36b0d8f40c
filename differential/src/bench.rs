//! Time of both implementations on the same books, in the same process.

use std::hint::black_box;
use std::time::{Duration, Instant};

use crate::measured::answer;
use crate::repair_bench;
use crate::shapes::{self, Books, Measured};
use crate::sides::{Side, SIDES};
use crate::table::grouped;

/// One timing lasts about so long, so that the clock's own step is small.
const TIMING: Duration = Duration::from_millis(3);

/// Nanoseconds a book, by side.
struct Times {
    proved: f64,
    reference: f64,
}

/// Measures the books under each of these headers.
pub fn run(rounds: u64, editions: &[u64]) -> Result<(), String> {
    println!(
        "Time of answering a book: the median of {rounds} rounds; in each round both are timed"
    );
    println!(
        "on a kind of book under each header, one behind the other. Each has a results list of"
    );
    println!("its own, filled once before all calls. The last column has the time of the proved");
    println!("library beside its time for the same deals under the first header measured.");
    println!();
    println!(
        "{:<24}{:>7}{:>8}{:>7}{:>7}{:>14}{:>14}{:>7}{:>10}",
        "full book of",
        "headed",
        "bytes",
        "deals",
        "items",
        "proved ns",
        "reference ns",
        "ratio",
        "headers"
    );
    for books in shapes::full(editions) {
        full(&books, rounds)?;
    }
    println!();
    println!("By count of deals, each with one item of collateral and one guarantee");
    growth(&shapes::by_deals(editions), rounds)?;
    println!();
    println!(
        "By count of items, half of them guarantees, in {} deals",
        shapes::DEALS_BY_ITEMS
    );
    growth(&shapes::by_items(editions), rounds)?;
    println!();
    repair_bench::run(rounds)
}

fn full(books: &Books, rounds: u64) -> Result<(), String> {
    let all = timed(books, rounds)?;
    for (book, times) in books.iter().zip(&all) {
        println!(
            "{:<24}{:>7}{:>8}{:>7}{:>7}{:>14}{:>14}{:>7.2}{:>10.3}",
            book.name,
            book.edition,
            book.book.len(),
            book.deals,
            book.items,
            whole(times.proved),
            whole(times.reference),
            times.proved / times.reference,
            times.proved / all[0].proved
        );
    }
    Ok(())
}

fn growth(sizes: &[Books], rounds: u64) -> Result<(), String> {
    println!(
        "{:>7}{:>7}{:>7}{:>14}{:>14}{:>15}{:>18}{:>7}{:>10}",
        "headed",
        "deals",
        "items",
        "proved ns",
        "reference ns",
        "proved a deal",
        "reference a deal",
        "ratio",
        "headers"
    );
    for books in sizes {
        let all = timed(books, rounds)?;
        for (book, times) in books.iter().zip(&all) {
            let deals = book.deals as f64;
            println!(
                "{:>7}{:>7}{:>7}{:>14}{:>14}{:>15.1}{:>18.1}{:>7.2}{:>10.3}",
                book.edition,
                book.deals,
                book.items,
                whole(times.proved),
                whole(times.reference),
                times.proved / deals,
                times.reference / deals,
                times.proved / times.reference,
                times.proved / all[0].proved
            );
        }
    }
    Ok(())
}

fn whole(nanoseconds: f64) -> String {
    grouped(nanoseconds.round() as u64)
}

/// A book through one implementation, with a results list of its own.
struct Timing<'a> {
    side: Side,
    book: &'a [u8],
    results: Vec<u64>,
    /// How many calls make up a timing.
    calls: u64,
    times: Vec<f64>,
}

impl<'a> Timing<'a> {
    fn new(side: Side, measured: &'a Measured) -> Self {
        Timing {
            side,
            book: &measured.book,
            results: vec![u64::MAX; measured.deals * 4],
            calls: 1,
            times: Vec::new(),
        }
    }

    /// Nanoseconds a call.
    fn per_call(&mut self) -> f64 {
        let start = Instant::now();
        for _ in 0..self.calls {
            black_box(answer(self.side, self.book, &mut self.results));
        }
        start.elapsed().as_nanos() as f64 / self.calls as f64
    }

    fn set_calls(&mut self) {
        while self.per_call() * (self.calls as f64) < TIMING.as_nanos() as f64 {
            self.calls *= 2;
        }
    }
}

/// Times of one kind of book, under each header. All of them are timed in each
/// round, so that a busy machine slows them alike.
fn timed(books: &Books, rounds: u64) -> Result<Vec<Times>, String> {
    let mut timings = Vec::new();
    for book in books {
        timings.extend(checked(book)?);
    }
    timings.iter_mut().for_each(Timing::set_calls);
    for round in 0..rounds as usize {
        for turn in 0..timings.len() {
            // None is always the first.
            let next = (round + turn) % timings.len();
            let time = timings[next].per_call();
            timings[next].times.push(time);
        }
    }
    let mut medians = timings.into_iter().map(|timing| median(timing.times));
    let times = books.iter().map(|_| Times {
        proved: medians.next().unwrap_or(f64::NAN),
        reference: medians.next().unwrap_or(f64::NAN),
    });
    Ok(times.collect())
}

/// Both implementations on a book, which they answer alike.
fn checked(book: &Measured) -> Result<[Timing<'_>; 2], String> {
    let mut timings = SIDES.map(|side| Timing::new(side, book));
    let replies = timings
        .each_mut()
        .map(|timing| answer(timing.side, timing.book, &mut timing.results));
    match replies[0] == replies[1] && timings[0].results == timings[1].results {
        true => Ok(timings),
        false => Err(format!("the two answer the book {} differently", book.name)),
    }
}

fn median(mut times: Vec<f64>) -> f64 {
    times.sort_by(f64::total_cmp);
    let middle = times.len() / 2;
    match times.len() % 2 {
        1 => times[middle],
        _ => (times[middle - 1] + times[middle]) / 2.0,
    }
}

#[cfg(test)]
mod tests {
    #[test]
    fn medians() {
        assert_eq!(super::median(vec![3.0, 1.0, 2.0]), 2.0);
        assert_eq!(super::median(vec![4.0, 1.0, 2.0, 3.0]), 2.5);
    }
}
