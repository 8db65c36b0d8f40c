//! Reading a book (01: The book; 02: L1, L5, L9): its lines, the fields of a line,
//! and the deals that the lines make up.

use std::iter::Peekable;

use crate::acceptance::{open, push_collateral, push_cover};
use crate::record::{Collateral, Cover, Guarantee, Record, Swap, Terms};
use crate::{edition, refusal};

/// Bytes of the longest book; refusal 10 falls on a longer one.
pub const LONGEST: usize = 65_536;
const DEAL_START: &[u8] = b"D\t";
const MOST_DIGITS: usize = 13;
/// Place of the sovereign's step among the numbers of a D, G or S line: right
/// behind the step.
const SOVEREIGN_STEP: usize = 3;

/// The edition that a book's header names, and the lines behind the header.
#[derive(Clone, Copy, Debug)]
pub struct Body<'a> {
    edition: u64,
    text: &'a [u8],
}

/// The body of a book on which refusals 10, 9 and 12 do not fall.
pub fn body(book: &[u8]) -> Result<Body<'_>, u64> {
    if book.len() > LONGEST {
        return Err(refusal::LENGTH);
    }
    let (edition, text) = edition::headed(book).ok_or(refusal::HEADER)?;
    if text.is_empty() || text.starts_with(DEAL_START) {
        Ok(Body { edition, text })
    } else {
        Err(refusal::SECOND_LINE)
    }
}

/// The deals that the lines open, those that will be refused among them.
pub fn deal_count(body: Body<'_>) -> usize {
    lines(body.text).filter(|line| opens_deal(line)).count()
}

/// The first refused line of a deal.
#[derive(Clone, Copy, Debug, PartialEq, Eq)]
pub struct RefusedLine {
    pub refusal: u64,
    /// Number of the line in the book, where the header is line 1.
    pub line: u64,
}

/// The deals of a body, in order: the record that a deal ends with, or its
/// first refused line.
pub fn read_deals(body: Body<'_>) -> impl Iterator<Item = Result<Record, RefusedLine>> + '_ {
    DealReader {
        edition: body.edition,
        lines: (2..).zip(lines(body.text)).peekable(),
    }
}

struct DealReader<'a, I: Iterator<Item = (u64, &'a [u8])>> {
    edition: u64,
    lines: Peekable<I>,
}

impl<'a, I: Iterator<Item = (u64, &'a [u8])>> Iterator for DealReader<'a, I> {
    type Item = Result<Record, RefusedLine>;

    fn next(&mut self) -> Option<Self::Item> {
        let (line, text) = self.lines.next()?;
        let opened = open_by(text, self.edition);
        let mut deal = opened.map_err(|refusal| RefusedLine { refusal, line });
        while let Some((line, text)) = self.lines.next_if(|(_, text)| !opens_deal(text)) {
            // Behind a refused line the others only count.
            let Ok(record) = &mut deal else { continue };
            if let Err(refusal) = add_by(text, record) {
                deal = Err(RefusedLine { refusal, line });
            }
        }
        Some(deal)
    }
}

fn open_by(line: &[u8], edition: u64) -> Result<Record, u64> {
    match read(line, edition) {
        Some(Entry::Deal(terms)) => open(terms),
        _ => Err(refusal::LINE),
    }
}

/// The record was built line by line, so that 40 needs no test here.
fn add_by(line: &[u8], record: &mut Record) -> Result<(), u64> {
    match read(line, record.terms.edition) {
        Some(Entry::Collateral(item)) => push_collateral(record, item),
        Some(Entry::Cover(item)) => push_cover(record, item),
        _ => Err(refusal::LINE),
    }
}

/// Each line with its line feed, which the last one may lack.
pub fn lines(text: &[u8]) -> impl Iterator<Item = &[u8]> + '_ {
    text.split_inclusive(|&byte| byte == b'\n')
}

fn opens_deal(line: &[u8]) -> bool {
    line.starts_with(DEAL_START)
}

/// The content of a well-formed line.
enum Entry {
    Deal(Terms),
    Collateral(Collateral),
    Cover(Cover),
}

/// Reads a whole line of a book of the edition; none where refusal 11 falls on
/// it.
fn read(line: &[u8], edition: u64) -> Option<Entry> {
    let mut pieces = line.strip_suffix(b"\n")?.split(|&byte| byte == b'\t');
    let unsent = (!edition::sends_sovereign(edition)).then_some(SOVEREIGN_STEP);
    match pieces.next()? {
        b"D" => Some(Entry::Deal(terms(numbers(pieces, unsent)?, edition))),
        b"C" => Some(Entry::Collateral(numbers(pieces, None)?.into())),
        b"G" => Some(Entry::Cover(
            Guarantee::from(numbers(pieces, unsent)?).into(),
        )),
        b"S" => Some(Entry::Cover(Swap::from(numbers(pieces, unsent)?).into())),
        _ => None,
    }
}

/// The terms of a D line's numbers and of what the header says.
fn terms(sent: [u64; 11], edition: u64) -> Terms {
    let mut fields = [edition; 12];
    fields[..sent.len()].copy_from_slice(&sent);
    fields.into()
}

/// Exactly as many numbers as the line's letter has fields. A place that such
/// lines do not send reads 0.
fn numbers<'a, const N: usize>(
    mut pieces: impl Iterator<Item = &'a [u8]>,
    unsent: Option<usize>,
) -> Option<[u64; N]> {
    let mut numbers = [0; N];
    for (place, field) in numbers.iter_mut().enumerate() {
        if unsent != Some(place) {
            *field = number(pieces.next()?)?;
        }
    }
    pieces.next().is_none().then_some(numbers)
}

/// A number of 1 to 13 digits without a leading zero, save 0 itself.
fn number(digits: &[u8]) -> Option<u64> {
    let leading_zero = digits.len() > 1 && digits[0] == b'0';
    if digits.is_empty() || digits.len() > MOST_DIGITS || leading_zero {
        return None;
    }
    digits.iter().try_fold(0, |number, &byte| match byte {
        b'0'..=b'9' => Some(number * 10 + u64::from(byte - b'0')),
        _ => None,
    })
}

#[cfg(test)]
mod tests {
    use super::*;

    #[test]
    fn numbers_have_1_to_13_digits_and_no_leading_zero() {
        assert_eq!(number(b"0"), Some(0));
        assert_eq!(number(b"10"), Some(10));
        assert_eq!(number(b"9999999999999"), Some(9_999_999_999_999));
        for bad in [
            &b""[..],
            b"00",
            b"01",
            b"10000000000000",
            b"+1",
            b"-1",
            b"1 ",
            b" 1",
            b"1\r",
            b"1.0",
            b"a",
            b"\xff",
            b"\0",
            b"1/",
            b"1:",
        ] {
            assert_eq!(number(bad), None, "{bad:?}");
        }
    }

    #[test]
    fn a_line_needs_its_letter_its_fields_and_its_line_feed() {
        assert!(matches!(
            read(b"D\t1\t3\t0\t978\t3\t1\t90\t1\t0\t0\n", 1),
            Some(Entry::Deal(_))
        ));
        assert!(matches!(
            read(b"C\t1\t1\t0\t0\t978\t90\t90\t1\t1\t1\t0\n", 1),
            Some(Entry::Collateral(_))
        ));
        assert!(matches!(
            read(b"G\t1\t1\t1\t978\t90\t90\t1\t1\t1\n", 1),
            Some(Entry::Cover(Cover::Guarantee(_)))
        ));
        assert!(matches!(
            read(b"S\t1\t1\t1\t978\t90\t90\t1\t1\t1\t0\n", 1),
            Some(Entry::Cover(Cover::Swap(_)))
        ));
        for bad in [
            &b""[..],
            b"\n",
            b"\t\n",
            b"D\n",
            b"D\t1\t3\t0\t978\t3\t1\t90\t1\t0\t0",
            b"D\t1\t3\t0\t978\t3\t1\t90\t1\t0\n",
            b"D\t1\t3\t0\t978\t3\t1\t90\t1\t0\t0\t\n",
            b"D\t1\t3\t0\t978\t3\t1\t90\t1\t0\t0\t0\n",
            b"D\t1\t3\t0\t978\t3\t1\t90\t1\t0\t0\r\n",
            b"D\t\t1\t3\t0\t978\t3\t1\t90\t1\t0\t0\n",
            b"d\t1\t3\t0\t978\t3\t1\t90\t1\t0\t0\n",
            b"CC\t1\t1\t0\t0\t978\t90\t90\t1\t1\t1\t0\n",
            b"s\t1\t1\t1\t978\t90\t90\t1\t1\t1\t0\n",
            b"SS\t1\t1\t1\t978\t90\t90\t1\t1\t1\t0\n",
            b"S\t1\t1\t1\t978\t90\t90\t1\t1\t1\n",
            b"S\t1\t1\t1\t978\t90\t90\t1\t1\t1\t0",
            b"X\t1\n",
        ] {
            assert!(read(bad, 1).is_none(), "{bad:?}");
        }
    }

    /// A line of as many ones as it takes to have the fields.
    fn line_of(letter: &str, fields: usize) -> Vec<u8> {
        let ones = "\t1".repeat(fields - 1);
        format!("{letter}{ones}\n").into_bytes()
    }

    #[test]
    fn lines_have_the_fields_of_their_edition() {
        for (edition, letter, expected) in [
            (1, "D", 11),
            (1, "C", 12),
            (1, "G", 10),
            (1, "S", 11),
            (2, "D", 12),
            (2, "C", 12),
            (2, "G", 11),
            (2, "S", 12),
            (3, "D", 12),
            (3, "C", 12),
            (3, "G", 11),
            (3, "S", 12),
        ] {
            for fields in 1..=15 {
                let reads = read(&line_of(letter, fields), edition).is_some();
                assert_eq!(reads, fields == expected, "{edition} {letter} {fields}");
            }
        }
    }

    /// Step, sovereign's step, currency and edition of a D line.
    fn read_deal(line: &[u8], edition: u64) -> Option<[u64; 4]> {
        match read(line, edition)? {
            Entry::Deal(t) => Some([t.step, t.sovereign_step, t.currency, t.edition]),
            _ => None,
        }
    }

    /// Step, sovereign's step and currency of a G or S line.
    fn read_cover(line: &[u8], edition: u64) -> Option<[u64; 3]> {
        match read(line, edition)? {
            Entry::Cover(item) => {
                let sent = item.guarantee();
                Some([sent.step, sent.sovereign_step, sent.currency])
            }
            _ => None,
        }
    }

    #[test]
    fn the_step_of_the_sovereign_stands_behind_the_step() {
        let deal = b"D\t1\t3\t4\t978\t3\t1\t90\t1\t0\t0\n";
        assert_eq!(read_deal(deal, 1), Some([4, 0, 978, 1]));
        let deal = b"D\t1\t3\t4\t5\t978\t3\t1\t90\t1\t0\t0\n";
        assert_eq!(read_deal(deal, 2), Some([4, 5, 978, 2]));
        assert_eq!(read_deal(deal, 3), Some([4, 5, 978, 3]));
        let guarantee = b"G\t1\t2\t4\t978\t90\t90\t1\t1\t1\n";
        assert_eq!(read_cover(guarantee, 1), Some([4, 0, 978]));
        let guarantee = b"G\t1\t2\t4\t5\t978\t90\t90\t1\t1\t1\n";
        assert_eq!(read_cover(guarantee, 2), Some([4, 5, 978]));
        assert_eq!(read_cover(guarantee, 3), Some([4, 5, 978]));
        let swap = b"S\t1\t2\t4\t978\t90\t90\t1\t1\t1\t0\n";
        assert_eq!(read_cover(swap, 1), Some([4, 0, 978]));
        let swap = b"S\t1\t2\t4\t5\t978\t90\t90\t1\t1\t1\t0\n";
        assert_eq!(read_cover(swap, 2), Some([4, 5, 978]));
        assert_eq!(read_cover(swap, 3), Some([4, 5, 978]));
    }

    #[test]
    fn nothing_stands_behind_the_last_line_feed() {
        assert_eq!(lines(b"").count(), 0);
        assert_eq!(lines(b"a\n").count(), 1);
        assert_eq!(lines(b"a\n\n").count(), 2);
        assert_eq!(lines(b"a\nb").count(), 2);
    }
}
