//! One book or one record through both implementations, every number compared.

use std::fmt::Debug;

use hadlephoga::{
    BookReply, Record, Report, COVER_WIDTH, ITEMS, OUTCOME_WIDTH, RECORD_LENGTH, REPORT_LENGTH,
};
use reference::DealRead;

use crate::asked::Asked;
use crate::changes;
use crate::entries::{self, Entered, EnteredDeal};
use crate::floors;
use crate::heading::{another, edition_of};
use crate::lent::{Lent, MARGIN};
use crate::line::{count_deals, lines, opens_deal};
use crate::operations;
use crate::random::Random;
use crate::records::{change_sovereigns, fill_past_counts, without_garbage};
use crate::sides::{from_reference, reference_report, Side};
use crate::sums;
use crate::tally::Tally;

/// Where the two disagree.
pub struct Difference {
    pub about: String,
    /// The deal's serial and lines, the numbers of a record or of a netting set, or the mailed
    /// text.
    pub deal: String,
    pub proved: String,
    pub reference: String,
    /// What is left in a file, where that is not the book.
    pub left: Option<Box<Left>>,
}

/// What came by mail, or a netting set as a line of numbers.
pub struct Left {
    pub what: &'static str,
    pub bytes: Vec<u8>,
}

impl Left {
    pub fn new(what: &'static str, bytes: Vec<u8>) -> Option<Box<Self>> {
        Some(Box::new(Left { what, bytes }))
    }
}

pub fn differ(about: &str, deal: String, proved: impl Debug, reference: impl Debug) -> Difference {
    Difference {
        about: about.to_string(),
        deal,
        proved: format!("{proved:?}"),
        reference: format!("{reference:?}"),
        left: None,
    }
}

/// Answers a book into lists of several lengths and reports each of its deals; what is then to
/// be entered otherwise.
pub fn book(random: &mut Random, book: &[u8], tally: &mut Tally) -> Result<Entered, Difference> {
    let deals = count_deals(book);
    let exact = deals * 4;
    let (reply, results) = answers(book, exact, tally)?;
    let others = [
        exact.saturating_sub(1),
        exact + random.index(10),
        random.index(exact + 10),
        exact.saturating_sub(4),
        0,
    ];
    answers(book, others[0], tally)?;
    answers(book, random.pick(&others[1..]), tally)?;
    let edition = edition_of(book);
    if edition.is_some() {
        tally.size(book.len(), deals);
    }
    match edition.filter(|_| reply.refusal == 0) {
        Some(edition) => tally.answered_book(book, edition, &results),
        None => tally.refused_book(book, reply.refusal),
    }
    // Drawn aside, so that the records of a seed are those of before there were other orders.
    let aside = random.aside();
    let deals = reports(random, book, reply, &results, tally)?;
    Ok(Entered {
        random: aside,
        answered: (reply, results),
        deals,
    })
}

/// Both answers with a list of this length; the whole list is compared.
pub fn answers(
    book: &[u8],
    length: usize,
    tally: &mut Tally,
) -> Result<(BookReply, Vec<u64>), Difference> {
    let (mut proved, mut reference) = (Lent::new(length), Lent::new(length));
    let proved_reply = Side::Proved.answer_book(book, proved.list());
    let reference_reply = Side::Reference.answer_book(book, reference.list());
    let about = format!("answering with a list of {length}");
    if proved_reply != reference_reply {
        let none = String::from("the whole book");
        return Err(differ(&about, none, proved_reply, reference_reply));
    }
    if proved.numbers != reference.numbers {
        let mut places = proved.numbers.iter().zip(&reference.numbers);
        let place = places.position(|(one, other)| one != other).unwrap_or(0);
        let first = place.saturating_sub(MARGIN) / 4 * 4 + MARGIN;
        let four = first..(first + 4).min(proved.numbers.len());
        return Err(differ(
            &about,
            lines_of(book, (first - MARGIN) / 4),
            &proved.numbers[four.clone()],
            &reference.numbers[four],
        ));
    }
    if proved_reply.refusal != 0 {
        tally.answers.books.meet(&[proved_reply.refusal]);
    }
    tally.counts.numbers += 2 + length as u64;
    Ok((proved_reply, proved.list().to_vec()))
}

/// The serial and lines of the deal in this place of a book.
fn lines_of(book: &[u8], place: usize) -> String {
    let mut text = format!("deal {}:\n", place + 1);
    let mut deals = 0;
    for (number, line) in lines(book).enumerate().skip(1) {
        deals += usize::from(opens_deal(line));
        if deals == place + 1 {
            text += &format!("  line {}: {}\n", number + 1, line.escape_ascii());
        }
    }
    text
}

/// Every deal of a book as the second implementation reads it: its answer is
/// its first refused line, or the figures of its whole report. The accepted ones.
fn reports(
    random: &mut Random,
    book: &[u8],
    reply: BookReply,
    results: &[u64],
    tally: &mut Tally,
) -> Result<Vec<EnteredDeal>, Difference> {
    let deals = match reference::deals(book) {
        Err(refusal) if refusal == reply.refusal => return Ok(Vec::new()),
        Ok(deals) if reply.refusal == 0 && deals.len() as u64 == reply.deals => deals,
        other => {
            let read = other.map(|deals| deals.len());
            return Err(differ("reading", "the whole book".into(), reply, read));
        }
    };
    let mut entered = Vec::new();
    for (place, (read, answer)) in deals.iter().zip(results.chunks_exact(4)).enumerate() {
        let serial = place as u64 + 1;
        let expected = match read {
            DealRead::Refused { refusal, line } => [serial, *refusal, *line, 0],
            DealRead::Accepted(record) => {
                let report = accepted(random, from_reference(record), tally);
                let (report, deal) = report.map_err(|mut difference| {
                    difference.deal = lines_of(book, place) + &difference.deal;
                    difference
                })?;
                entered.push(deal);
                [serial, 0, report.exposure, report.weighted_amount]
            }
        };
        if answer != expected {
            let about = "a deal's answer and its report or refused line";
            return Err(differ(about, lines_of(book, place), answer, expected));
        }
    }
    Ok(entered)
}

/// The report of a deal that a book gave. Some of these deals are built from
/// nothing, some get garbage past their counts, some another edition.
fn accepted(
    random: &mut Random,
    mut record: Record,
    tally: &mut Tally,
) -> Result<(Report, EnteredDeal), Difference> {
    let numbers = record.to_numbers();
    if random.percent(5) {
        operations::built(&record, tally)?;
    }
    let (_, report) = report(random, &numbers, tally)?;
    if random.percent(20) {
        fill_past_counts(random, &mut record);
        garbage(&record, &report, tally)?;
    }
    let entered = EnteredDeal {
        random: random.aside(),
        record: record.clone(),
        report: (0, report),
    };
    let report = Report::from_numbers(&report);
    tally.report(&record, &report);
    if random.percent(25) {
        another_edition(random, &record, &report, tally)?;
    }
    Ok((report, entered))
}

/// An accepted deal that is changed to another edition. To or from edition 1, where
/// steps of sovereigns have no effect, it is changed to other ones too; between 2
/// and 3 they stay, so that the tables alone differ.
fn another_edition(
    random: &mut Random,
    record: &Record,
    report: &Report,
    tally: &mut Tally,
) -> Result<(), Difference> {
    let mut changed = record.clone();
    changed.terms.edition = another(random, record.terms.edition);
    let [from, to] = [record, &changed].map(|of| of.terms.edition);
    if from == 1 || to == 1 {
        change_sovereigns(random, &mut changed);
    }
    let (_, numbers) = self::report(random, &changed.to_numbers(), tally)?;
    let other = Report::from_numbers(&numbers);
    tally.report(&changed, &other);
    let (earlier, reports) = match from < to {
        true => (record, [report, &other]),
        false => (&changed, [&other, report]),
    };
    match from.max(to) {
        2 => floors::meet_change(&mut tally.floors, earlier, reports),
        _ => changes::meet(&mut tally.changes, earlier, reports),
    }
    Ok(())
}

/// A record of any numbers.
pub fn record(
    random: &mut Random,
    numbers: &[u64; RECORD_LENGTH],
    tally: &mut Tally,
) -> Result<(), Difference> {
    tally.counts.records += 1;
    let (refusal, report) = report(random, numbers, tally)?;
    let record = Record::from_numbers(numbers);
    garbage(&without_garbage(record.clone()), &report, tally)?;
    tally.editions.meet_record(numbers, refusal);
    match refusal {
        0 => {
            tally.counts.accepted_records += 1;
            tally.report(&record, &Report::from_numbers(&report));
            let aside = &mut random.aside();
            entries::deal(aside, Asked::Both, &record, &(0, report), tally)?;
        }
        refusal => {
            tally.answers.records.meet(&[refusal]);
            tally.sovereigns.meet_record(&record);
            tally.restructuring.meet_refused(&record);
            tally.report_places.meet_refused(&record);
        }
    }
    if random.percent(10) {
        lengths(random, numbers, tally)?;
    }
    Ok(())
}

/// Both reports of a record, into a list that may be longer than a report.
pub fn report(
    random: &mut Random,
    record: &[u64; RECORD_LENGTH],
    tally: &mut Tally,
) -> Result<(u64, [u64; REPORT_LENGTH]), Difference> {
    let longer = match random.percent(75) {
        true => 0,
        false => random.index(20),
    };
    let (mut proved, mut reference) = (
        Lent::new(REPORT_LENGTH + longer),
        Lent::new(REPORT_LENGTH + longer),
    );
    let proved_refusal = hadlephoga::report_numbers(record, proved.list());
    let (reference_refusal, report) = reference_report(record);
    reference.list()[..REPORT_LENGTH].copy_from_slice(&report);
    tally.counts.numbers += 1 + (REPORT_LENGTH + longer) as u64;
    if proved_refusal != reference_refusal || proved.numbers != reference.numbers {
        let mut places = proved.list().iter().zip(reference.list());
        let place = places.position(|(one, other)| one != other);
        return Err(differ(
            &format!(
                "a report, first in {}",
                place.map_or("its refusal".into(), named)
            ),
            format!("record {record:?}"),
            (proved_refusal, proved.list()),
            (reference_refusal, reference.list()),
        ));
    }
    let of_proved = std::array::from_fn(|place| proved.list()[place]);
    add_up(
        record,
        [(proved_refusal, of_proved), (reference_refusal, report)],
    )?;
    Ok((proved_refusal, report))
}

/// Refusal and report of each side add up by themselves, which two that agree need not.
fn add_up(
    record: &[u64; RECORD_LENGTH],
    sides: [(u64, [u64; REPORT_LENGTH]); 2],
) -> Result<(), Difference> {
    let [proved, reference] =
        (sides.each_ref()).map(|(refusal, report)| sums::wrong(record, *refusal, report));
    if proved.is_none() && reference.is_none() {
        return Ok(());
    }
    let [(_, of_proved), (_, of_reference)] = sides;
    Err(differ(
        "what a report adds up to, though both may agree",
        format!("record {record:?}"),
        (proved, of_proved),
        (reference, of_reference),
    ))
}

/// What stands in this place of a report.
fn named(place: usize) -> String {
    const COLLATERAL: usize = 1;
    const GUARANTEES: usize = COLLATERAL + ITEMS * OUTCOME_WIDTH;
    const REST: usize = GUARANTEES + ITEMS * COVER_WIDTH;
    const PARTS: [&str; COVER_WIDTH] = [
        "value",
        "ground",
        "haircut loss",
        "maturity loss",
        "cut loss",
        "amount left out",
        "portion",
    ];
    let part = |first: usize, parts: &[&str], of: &str| {
        let (item, part) = ((place - first) / parts.len(), (place - first) % parts.len());
        format!("the {} of {of} {}", parts[part], item + 1)
    };
    match place {
        0 => "E*".into(),
        COLLATERAL..GUARANTEES => part(COLLATERAL, &PARTS[..OUTCOME_WIDTH], "collateral"),
        GUARANTEES..REST => part(GUARANTEES, &PARTS, "guarantee"),
        REST => "the rest".into(),
        _ if place == REST + 1 => "the weighted amount".into(),
        _ => format!("place {place}, behind the report"),
    }
}

/// A record that differs past its counts alone has the same report.
fn garbage(
    record: &Record,
    report: &[u64; REPORT_LENGTH],
    tally: &mut Tally,
) -> Result<(), Difference> {
    let numbers = record.to_numbers();
    let mut proved = [0; REPORT_LENGTH];
    let proved_refusal = hadlephoga::report_numbers(&numbers, &mut proved);
    let (reference_refusal, reference) = reference_report(&numbers);
    tally.counts.numbers += REPORT_LENGTH as u64;
    if proved != *report || reference != *report {
        return Err(differ(
            &format!("places past the counts change the report {report:?}"),
            format!("record {numbers:?}"),
            proved,
            reference,
        ));
    }
    add_up(
        &numbers,
        [(proved_refusal, proved), (reference_refusal, reference)],
    )
}

/// Numbers of a report before there were losses: what a program lends that was built
/// for such.
const EARLIER_REPORT_LENGTH: usize = 83;

/// Lengths of a list that should have this one.
pub fn around(length: usize) -> [usize; 7] {
    let short = length - 1;
    [0, 1, short, length, length + 1, length + 2, length + 70]
}

/// Lists of other lengths: 13 and nothing written where the report's is too
/// short, then 40 and zeros where the record's is not a record's.
fn lengths(
    random: &mut Random,
    record: &[u64; RECORD_LENGTH],
    tally: &mut Tally,
) -> Result<(), Difference> {
    let mut record = record.to_vec();
    let length = random.pick(&around(RECORD_LENGTH));
    record.resize(length, 1);
    let rooms = [&around(REPORT_LENGTH)[..], &[EARLIER_REPORT_LENGTH]].concat();
    let room = random.pick(&rooms);
    if length == RECORD_LENGTH && room >= REPORT_LENGTH {
        return Ok(());
    }
    let (mut proved, mut expected) = (Lent::new(room), Lent::new(room));
    let refusal = hadlephoga::report_numbers(&record, proved.list());
    let due = match room < REPORT_LENGTH {
        true => 13,
        false => {
            expected.list()[..REPORT_LENGTH].fill(0);
            40
        }
    };
    tally.counts.numbers += 1 + room as u64;
    if refusal != due || proved.numbers != expected.numbers {
        return Err(differ(
            "lists of other lengths (beside what is due)",
            format!("record of {length} numbers, report of {room}"),
            (refusal, proved.list()),
            (due, expected.list()),
        ));
    }
    tally.answers.records.meet(&[refusal]);
    Ok(())
}

#[cfg(test)]
mod tests {
    use super::*;

    #[test]
    fn places_of_a_report() {
        assert_eq!(named(3), "the haircut loss of collateral 1");
        assert_eq!(named(96), "the amount left out of collateral 16");
        assert_eq!(named(97), "the value of guarantee 1");
        assert_eq!(named(207), "the amount left out of guarantee 16");
        assert_eq!(named(208), "the portion of guarantee 16");
        assert_eq!(named(211), "place 211, behind the report");
    }

    #[test]
    fn two_that_agree_need_not_add_up() {
        let terms = [900, 4, 0, 0, 978, 3, 1, 90, 1, 0, 0, 1];
        let cash = [500, 1, 0, 0, 840, 90, 90, 1, 1, 1, 0];
        let cash = hadlephoga::Collateral::from_numbers(&cash);
        let terms = hadlephoga::Terms::from_numbers(&terms);
        let record = Record::new(terms, &[cash], &[]).to_numbers();
        let right = reference_report(&record);
        assert!(add_up(&record, [right, right]).is_ok());
        // A haircut loss of one less, and no value or loss of more.
        let mut wrong = right;
        wrong.1[3] -= 1;
        for sides in [[wrong, wrong], [wrong, right], [right, wrong]] {
            let Err(difference) = add_up(&record, sides) else {
                panic!("a wrong sum passes");
            };
            let said = [difference.proved, difference.reference];
            let said = said.map(|side| side.contains("value and losses are not its amount"));
            assert_eq!(said, sides.map(|side| side == wrong));
        }
    }

    #[test]
    fn lines_of_a_deal() {
        let text = lines_of(b"CRM\t1\nD\t1\nC\nD\t2\n", 0);
        assert_eq!(text, "deal 1:\n  line 2: D\\t1\\n\n  line 3: C\\n\n");
    }
}
