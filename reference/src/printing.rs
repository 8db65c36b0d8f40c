//! What is printed for a book: the answer of `crmbook` (01: The book), the whole
//! report of each deal in a form of this crate's own, and the repair of a book
//! that came by mail (02: L14); and what is printed for netting sets (02: L6).

use std::fmt::{self, Display, Formatter};

use crate::answer::{answer_book, deals, DealRead, NUMBERS_A_DEAL};
use crate::book::{lines, LONGEST};
use crate::mail::repair_book;
use crate::netting::NettingReply;
use crate::netting_lines::line_reply;
use crate::outcome::{Outcome, Valuation};
use crate::record::{Cover, Record};
use crate::reporting::evaluated;

/// Deals that the results list of `crmbook` has room for.
const MOST_DEALS: usize = 2_048;

/// What the program `crmbook` prints for a book.
pub fn printed(book: &[u8]) -> Vec<u8> {
    let mut results = vec![0; MOST_DEALS * NUMBERS_A_DEAL];
    let reply = answer_book(book, &mut results);
    let text = match reply.refusal {
        0 => Answer(&results[..reply.deals * NUMBERS_A_DEAL]).to_string(),
        refusal => refused(refusal),
    };
    text.into_bytes()
}

/// The report of each deal of a book, a figure a line, parted by tabs; README.md
/// describes the lines. Books of any number of deals are reported.
pub fn printed_reports(book: &[u8]) -> Vec<u8> {
    let text = match deals(book) {
        Ok(deals) => Reports(&deals).to_string(),
        Err(refusal) => refused(refusal),
    };
    text.into_bytes()
}

/// What is printed for a book that came by mail: to standard output the repaired
/// book, to standard error the number of each altered line. Room for the longest
/// book is lent, and no repair is longer or alters more lines than it has bytes,
/// so that 10 is the one refusal.
pub fn printed_repair(book: &[u8]) -> (Vec<u8>, Vec<u8>) {
    let mut repaired = vec![0; LONGEST];
    let mut altered = vec![0; LONGEST];
    let reply = repair_book(book, &mut repaired, &mut altered);
    repaired.truncate(reply.bytes);
    let text = match reply.refusal {
        0 => AlteredLines(&altered[..reply.lines]).to_string(),
        refusal => refused(refusal),
    };
    (repaired, text.into_bytes())
}

/// What is printed for netting sets, one a line: refusal, E* and weighted amount
/// of each.
pub fn printed_netting(sets: &[u8]) -> Vec<u8> {
    let replies = lines(sets).map(line_reply);
    let text: String = replies.map(|reply| format!("{reply}\n")).collect();
    text.into_bytes()
}

fn refused(refusal: u64) -> String {
    format!("REFUSED\t{refusal}\n")
}

/// The results list of an answered book.
struct Answer<'a>(&'a [u64]);

impl Display for Answer<'_> {
    fn fmt(&self, out: &mut Formatter) -> fmt::Result {
        writeln!(out, "RESULT\t1")?;
        for four in self.0.chunks_exact(NUMBERS_A_DEAL) {
            writeln!(out, "{}\t{}\t{}\t{}", four[0], four[1], four[2], four[3])?;
        }
        Ok(())
    }
}

/// The numbers of the lines that a repair altered.
struct AlteredLines<'a>(&'a [u64]);

impl Display for AlteredLines<'_> {
    fn fmt(&self, out: &mut Formatter) -> fmt::Result {
        self.0.iter().try_for_each(|line| writeln!(out, "{line}"))
    }
}

struct Reports<'a>(&'a [DealRead]);

impl Display for Reports<'_> {
    fn fmt(&self, out: &mut Formatter) -> fmt::Result {
        writeln!(out, "REPORT\t2")?;
        for (serial, deal) in (1..).zip(self.0) {
            match deal {
                DealRead::Accepted(record) => write_report(out, serial, record)?,
                DealRead::Refused { refusal, line } => {
                    writeln!(out, "{serial}\tREFUSED\t{refusal}\t{line}")?;
                }
            }
        }
        Ok(())
    }
}

fn write_report(out: &mut Formatter, serial: u64, record: &Record) -> fmt::Result {
    let report = evaluated(record);
    let collateral = report.collateral.iter().zip(record.counted_collateral());
    let guarantees = report.guarantees.iter().zip(record.counted_guarantees());
    writeln!(out, "{serial}\tEXPOSURE\t{}", report.exposure)?;
    for (place, (outcome, _)) in (1..).zip(collateral) {
        writeln!(out, "{serial}\tCOLLATERAL\t{place}\t{outcome}")?;
    }
    for (place, ((outcome, portion), item)) in (1..).zip(guarantees) {
        let word = word_for(item);
        writeln!(out, "{serial}\t{word}\t{place}\t{outcome}\t{portion}")?;
    }
    writeln!(out, "{serial}\tREST\t{}", report.rest)?;
    writeln!(out, "{serial}\tWEIGHTED\t{}", report.weighted)
}

fn word_for(item: &Cover) -> &'static str {
    match item {
        Cover::Guarantee(_) => "GUARANTEE",
        Cover::Swap(_) => "SWAP",
    }
}

impl Display for NettingReply {
    fn fmt(&self, out: &mut Formatter) -> fmt::Result {
        let NettingReply {
            refusal,
            exposure,
            weighted,
        } = self;
        write!(out, "{refusal}\t{exposure}\t{weighted}")
    }
}

impl Display for Outcome {
    fn fmt(&self, out: &mut Formatter) -> fmt::Result {
        match self {
            Outcome::Valued(valuation) => write!(out, "VALUE\t{valuation}"),
            Outcome::LeftOut { ground, amount } => write!(out, "GROUND\t{ground}\t{amount}"),
        }
    }
}

impl Display for Valuation {
    fn fmt(&self, out: &mut Formatter) -> fmt::Result {
        let Valuation {
            value,
            haircut_loss,
            maturity_loss,
            cut_loss,
        } = self;
        write!(out, "{value}\t{haircut_loss}\t{maturity_loss}\t{cut_loss}")
    }
}
