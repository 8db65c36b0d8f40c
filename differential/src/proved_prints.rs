//! What is printed for a book, made from the proved library's numbers: the answer, and
//! the whole report of each deal, which the library opens, adds to and reports.

use std::fmt::Write;

use hadlephoga::{
    BookReply, Outcome, Record, Report, Valuation, ANSWER_LENGTH, RECORD_LENGTH, REPORT_LENGTH,
};

use crate::heading::edition_of;
use crate::held::GUARANTEE;
use crate::line::{count_deals, lines, opens_deal, Line};

/// Deals in the list that the program lends.
const PRINTED_DEALS: usize = 2048;
/// The refusal of a line that cannot be read.
const MALFORMED: u64 = 11;

/// As the program prints it.
pub fn answer(book: &[u8]) -> Vec<u8> {
    let mut results = vec![0; PRINTED_DEALS * ANSWER_LENGTH];
    let reply = hadlephoga::answer_book_numbers(book, &mut results);
    printed_answer(reply, &results)
}

fn printed_answer(reply: BookReply, results: &[u64]) -> Vec<u8> {
    if reply.refusal != 0 {
        return refused(reply.refusal);
    }
    let mut text = String::from("RESULT\t1\n");
    for answer in results
        .chunks_exact(ANSWER_LENGTH)
        .take(reply.deals as usize)
    {
        let [serial, refusal, exposure, weighted] = [answer[0], answer[1], answer[2], answer[3]];
        text += &format!("{serial}\t{refusal}\t{exposure}\t{weighted}\n");
    }
    text.into_bytes()
}

fn refused(refusal: u64) -> Vec<u8> {
    format!("REFUSED\t{refusal}\n").into_bytes()
}

/// Whole reports, a figure or an item a line; books of any number of deals have them.
pub fn reports(book: &[u8]) -> Vec<u8> {
    let mut results = vec![0; count_deals(book) * ANSWER_LENGTH];
    let reply = hadlephoga::answer_book_numbers(book, &mut results);
    let edition = match edition_of(book) {
        Some(edition) if reply.refusal == 0 => edition,
        _ => return refused(reply.refusal),
    };
    let mut text = String::from("REPORT\t2\n");
    for (serial, deal) in (1..).zip(deals(book)) {
        let printed = match built(edition, &deal) {
            Ok(record) => printed_report(&record),
            Err((refusal, line)) => format!("REFUSED\t{refusal}\t{line}\n"),
        };
        for line in printed.lines() {
            text += &format!("{serial}\t{line}\n");
        }
    }
    text.into_bytes()
}

/// The lines of each deal of an answered book, with their numbers.
fn deals(book: &[u8]) -> Vec<Vec<(u64, &[u8])>> {
    let mut deals: Vec<Vec<(u64, &[u8])>> = Vec::new();
    for (number, line) in (1..).zip(lines(book)).skip(1) {
        match deals.last_mut() {
            Some(deal) if !opens_deal(line) => deal.push((number, line)),
            _ => deals.push(vec![(number, line)]),
        }
    }
    deals
}

/// The record of a deal, or the first refusal and its line's number.
fn built(edition: u64, deal: &[(u64, &[u8])]) -> Result<[u64; RECORD_LENGTH], (u64, u64)> {
    let mut record = [0; RECORD_LENGTH];
    for (number, text) in deal {
        let refusal = Line::read(text, edition).map_or(MALFORMED, |line| match line.letter {
            b'D' => hadlephoga::open_numbers(&line.fields, &mut record),
            b'C' => hadlephoga::add_collateral_numbers(&mut record, &line.fields),
            b'G' => hadlephoga::add_guarantee_numbers(&mut record, &line.fields),
            _ => hadlephoga::add_swap_numbers(&mut record, &line.fields),
        });
        if refusal != 0 {
            return Err((refusal, *number));
        }
    }
    Ok(record)
}

/// Without the serial that stands before every line.
fn printed_report(numbers: &[u64; RECORD_LENGTH]) -> String {
    let mut report = [0; REPORT_LENGTH];
    let refusal = hadlephoga::report_numbers(numbers, &mut report);
    if refusal != 0 {
        return format!("REFUSED\t{refusal}\n");
    }
    let (record, report) = (Record::from_numbers(numbers), Report::from_numbers(&report));
    let mut text = format!("EXPOSURE\t{}\n", report.exposure);
    let collateral = (1..=record.collateral_count).zip(&report.collateral);
    for (place, outcome) in collateral {
        let outcome = printed_outcome(outcome);
        let _ = writeln!(text, "COLLATERAL\t{place}\t{outcome}");
    }
    let covers = record.guarantees.iter().zip(&report.guarantees);
    for (place, (item, cover)) in (1..=record.guarantee_count).zip(covers) {
        let word = match item.instrument {
            GUARANTEE => "GUARANTEE",
            _ => "SWAP",
        };
        let (outcome, portion) = (printed_outcome(&cover.outcome), cover.portion);
        let _ = writeln!(text, "{word}\t{place}\t{outcome}\t{portion}");
    }
    let (rest, weighted) = (report.rest, report.weighted_amount);
    text + &format!("REST\t{rest}\nWEIGHTED\t{weighted}\n")
}

fn printed_outcome(outcome: &Outcome) -> String {
    match outcome {
        Outcome::Valued(Valuation {
            value,
            haircut_loss,
            maturity_loss,
            cut_loss,
        }) => format!("VALUE\t{value}\t{haircut_loss}\t{maturity_loss}\t{cut_loss}"),
        Outcome::LeftOut { ground, amount } => format!("GROUND\t{}\t{amount}", ground.0),
    }
}

#[cfg(test)]
mod tests {
    use super::*;

    #[test]
    fn what_is_printed() {
        let (refusal, deals) = (0, 1);
        assert_eq!(
            printed_answer(BookReply { refusal, deals }, &[1, 0, 900, 675, 7, 7, 7, 7]),
            b"RESULT\t1\n1\t0\t900\t675\n"
        );
        let (refusal, deals) = (13, 0);
        assert_eq!(
            printed_answer(BookReply { refusal, deals }, &[7; 8]),
            b"REFUSED\t13\n"
        );
    }

    #[test]
    fn every_line_of_a_report() {
        let book = b"CRM\t1\n\
            D\t1000\t3\t6\t978\t3\t1\t1800\t1\t0\t0\n\
            C\t300\t1\t0\t0\t840\t900\t1800\t1\t1\t1\t0\n\
            S\t1500\t1\t1\t840\t900\t1800\t1\t1\t1\t0\n\
            C\t200\t1\t0\t0\t978\t1800\t1800\t0\t1\t1\t0\n\
            G\t700\t1\t6\t978\t1800\t1800\t1\t1\t1\n\
            S\t80\t1\t1\t978\t1800\t1800\t1\t1\t1\t1\n\
            D\t900\t4\t0\t978\t3\t1\t90\t1\t0\t0\n\
            C\t1\n\
            D\t900\t4\t0\t978\t3\t1\t90\t1\t0\t0\n";
        let due = "REPORT\t2\n\
            1\tEXPOSURE\t874\n\
            1\tCOLLATERAL\t1\tVALUE\t126\t34\t140\t0\n\
            1\tCOLLATERAL\t2\tGROUND\t21\t200\n\
            1\tSWAP\t1\tVALUE\t261\t48\t291\t900\t261\n\
            1\tGUARANTEE\t2\tGROUND\t29\t700\t0\n\
            1\tSWAP\t3\tVALUE\t80\t0\t0\t0\t80\n\
            1\tREST\t533\n\
            1\tWEIGHTED\t800\n\
            2\tREFUSED\t11\t9\n\
            3\tEXPOSURE\t900\n\
            3\tREST\t900\n\
            3\tWEIGHTED\t675\n";
        let printed = String::from_utf8(reports(book)).expect("a text");
        assert_eq!(printed, due);
        assert_eq!(reports(b"CRM\t1\nC\n"), b"REFUSED\t12\n");
        assert_eq!(reports(b"CRM\t3\n"), b"REPORT\t2\n");
    }

    #[test]
    fn both_print_alike() {
        for number in 0..300 {
            let book = crate::books::book(11, number).bytes;
            assert_eq!(answer(&book), reference::printed(&book));
            assert!(reports(&book) == reference::printed_reports(&book));
        }
    }
}
