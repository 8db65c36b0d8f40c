//! Many random books, records, mailed texts and netting sets through both implementations.

use std::path::PathBuf;
use std::time::{Duration, Instant};

use crate::arguments::{Orders, Run, Sets};
use crate::books::{self, Book};
use crate::cells::Cells;
use crate::compare::{self, Difference};
use crate::entries;
use crate::mailed::{self, Mailed};
use crate::nettings;
use crate::operations;
use crate::random::Random;
use crate::records;
use crate::repairs;
use crate::sets::SETS;
use crate::sides::SIDES;
use crate::table;
use crate::tally::Tally;

/// Runs until the deals or the seconds are used up; whether all agreed and, if
/// it was asked for, everything was met.
pub fn run(options: &Run) -> bool {
    let start = Instant::now();
    let mut tally = Tally::new();
    let deals = options.deals.unwrap_or(u64::MAX);
    let time = options.seconds.map_or(Duration::MAX, Duration::from_secs);
    let mut number = 0;
    while tally.counts.deals < deals && start.elapsed() < time {
        let book = books::book(options.seed, number);
        if let Err(difference) = trial(options.seed, number, &book, &mut tally) {
            report_difference(options.seed, number, &book, &difference);
            return false;
        }
        number += 1;
    }
    let seconds = start.elapsed().as_secs_f64();
    println!("seed {}, books 0 to {}", options.seed, number.max(1) - 1);
    table::print(&tally);
    println!();
    println!(
        "no difference; {seconds:.1} s, {:.0} deals per second",
        tally.counts.deals as f64 / seconds
    );
    complete(&tally.families(), options.require_all)
}

/// Netting sets alone, those that stand beside the books of a run; whether all agreed and, if
/// it was asked for, every case of them was met.
pub fn sets(options: &Sets) -> bool {
    let start = Instant::now();
    let mut tally = Tally::new();
    let numbers = options.sets.div_ceil(SETS);
    for number in 0..numbers {
        if let Err(difference) = nettings::nettings(options.seed, number, &mut tally) {
            let book = books::book(options.seed, number);
            report_difference(options.seed, number, &book, &difference);
            return false;
        }
    }
    let seconds = start.elapsed().as_secs_f64();
    println!("seed {}, sets of {numbers} books", options.seed);
    table::print_sets(&tally.netting);
    println!();
    println!("no difference; {seconds:.1} s");
    complete(&tally.netting.families(), options.require_all)
}

/// Other orders and splits alone, of the deals of a run: each side is held to its own answers,
/// and the two are not compared.
pub fn orders(options: &Orders) -> bool {
    let start = Instant::now();
    let mut tally = Tally::new();
    let mut number = 0;
    while tally.counts.accepted_deals < options.deals {
        let book = books::book(options.seed, number);
        let held = entries::alone(options.seed, number, &book.bytes, &mut tally);
        if let Err(difference) = held {
            report_difference(options.seed, number, &book, &difference);
            return false;
        }
        number += 1;
    }
    let seconds = start.elapsed().as_secs_f64();
    println!("seed {}, books 0 to {}", options.seed, number.max(1) - 1);
    table::print_orders(&tally);
    println!();
    println!("no difference; {seconds:.1} s");
    complete(&tally.entries.families(), options.require_all)
}

/// One book, then records, operations, a text that came by mail and netting sets, then the book
/// and its deals entered otherwise; all of it from the seed and the book's number.
fn trial(seed: u64, number: u64, book: &Book, tally: &mut Tally) -> Result<(), Difference> {
    tally.counts.books += 1;
    *tally
        .counts
        .books_by_kind
        .entry(book.kind.name())
        .or_default() += 1;
    let random = &mut Random::new(!seed, number);
    let entered = compare::book(random, &book.bytes, tally)?;
    for _ in 0..random.below(4) {
        let record = records::record(random);
        compare::record(random, &record, tally)?;
    }
    operations::operations(random, tally)?;
    let mailed = mailed::mailed(seed, number, &book.bytes);
    repairs::repairs(random, &mailed, &book.bytes, tally)?;
    nettings::nettings(seed, number, tally)?;
    entered.otherwise(&book.bytes, tally)
}

fn complete(families: &[&Cells], require_all: bool) -> bool {
    let mut complete = true;
    for cells in families {
        for cell in cells.unlisted() {
            println!("{}: {cell:?} is no case of the papers", cells.title);
            complete = false;
        }
        for cell in cells.never_met().take(10).filter(|_| require_all) {
            println!("{}: {cell:?} was never met", cells.title);
            complete = false;
        }
    }
    complete
}

/// Compares one book again: its bytes on standard output, all else on standard
/// error.
pub fn one_book(seed: u64, number: u64) -> bool {
    use std::io::Write;

    let book = books::book(seed, number);
    let written = std::io::stdout().write_all(&book.bytes);
    let length = book.bytes.len();
    eprintln!(
        "seed {seed}, book {number}: {}, {length} bytes",
        book.kind.name()
    );
    for side in SIDES {
        let mut results = vec![0; crate::line::count_deals(&book.bytes) * 4];
        let reply = side.answer_book(&book.bytes, &mut results);
        eprintln!("{}: {reply:?}", side.name());
        for answer in results.chunks_exact(4).take(reply.deals as usize) {
            eprintln!("  {answer:?}");
        }
    }
    show_mailed(&mailed::mailed(seed, number, &book.bytes));
    nettings::show(seed, number);
    match trial(seed, number, &book, &mut Tally::new()) {
        Ok(()) => eprintln!("no difference, nor in records, mailed text and netting sets"),
        Err(difference) => {
            report_difference(seed, number, &book, &difference);
            return false;
        }
    }
    written.is_ok()
}

/// What came by mail beside the book, and what each side says of it with room for all.
fn show_mailed(mailed: &Mailed) {
    let text = &mailed.bytes;
    let length = text.len();
    eprintln!("mailed: {}, {length} bytes", mailed.kind.name());
    for side in SIDES {
        let (mut repaired, mut altered) = (vec![0; length], vec![0; length]);
        let reply = side.repair_book(text, &mut repaired, &mut altered);
        eprintln!("{}: {reply:?}", side.name());
    }
}

fn report_difference(seed: u64, number: u64, book: &Book, difference: &Difference) {
    eprintln!("DIFFERENCE in {}", difference.about);
    eprintln!("seed {seed}, book {number} ({})", book.kind.name());
    eprintln!("{}", difference.deal);
    eprintln!("proved:    {}", difference.proved);
    eprintln!("reference: {}", difference.reference);
    eprintln!("again: differential --seed {seed} --book {number}");
    let target = PathBuf::from(concat!(env!("CARGO_MANIFEST_DIR"), "/../target"));
    let file = target.join("differential-failure.book");
    let (what, bytes) = match &difference.left {
        Some(left) => (left.what, &left.bytes),
        None => ("book", &book.bytes),
    };
    let written = std::fs::create_dir_all(&target).and_then(|()| std::fs::write(&file, bytes));
    match written {
        Ok(()) => eprintln!("the {what} is in target/differential-failure.book"),
        Err(error) => eprintln!("the {what} could not be written: {error}"),
    }
}
