//! A line of a book as its letter and the numbers that opening or adding takes
//! for it, those that it leaves out among them.

use hadlephoga::{Collateral, Guarantee, Swap, Terms};

use crate::heading::{is_sent, EDITION};

/// Digits of the longest number of a line.
const MOST_DIGITS: usize = 13;

#[derive(Clone, Debug)]
pub struct Line {
    pub letter: u8,
    pub fields: Vec<u64>,
}

impl Line {
    pub fn new(letter: u8, fields: &[u64]) -> Self {
        let fields = fields.to_vec();
        Line { letter, fields }
    }

    /// What a text says in a book of this edition; None where it is malformed.
    pub fn read(text: &[u8], edition: u64) -> Option<Self> {
        let mut pieces = text.strip_suffix(b"\n")?.split(|byte| *byte == b'\t');
        let letter = match pieces.next()? {
            [letter] => *letter,
            _ => return None,
        };
        let mut fields = vec![0; width(letter)?];
        for (place, field) in fields.iter_mut().enumerate() {
            if is_sent(edition, letter, place) {
                *field = number(pieces.next()?)?;
            }
        }
        if letter == b'D' {
            fields[EDITION] = edition;
        }
        let whole = pieces.next().is_none();
        whole.then_some(Line { letter, fields })
    }

    /// As it stands in a book of this edition, with its line feed.
    pub fn text(&self, edition: u64) -> Vec<u8> {
        let mut text = vec![self.letter];
        for (place, field) in self.fields.iter().enumerate() {
            if is_sent(edition, self.letter, place) {
                text.extend_from_slice(format!("\t{field}").as_bytes());
            }
        }
        text.push(b'\n');
        text
    }
}

/// How many numbers opening or adding takes for a line with this letter.
pub fn width(letter: u8) -> Option<usize> {
    match letter {
        b'D' => Some(Terms::LENGTH),
        b'C' => Some(Collateral::LENGTH),
        b'G' => Some(Guarantee::LENGTH),
        b'S' => Some(Swap::LENGTH),
        _ => None,
    }
}

fn number(digits: &[u8]) -> Option<u64> {
    let leading_zero = digits.len() > 1 && digits[0] == b'0';
    let fits = (1..=MOST_DIGITS).contains(&digits.len()) && !leading_zero;
    if !fits || !digits.iter().all(u8::is_ascii_digit) {
        return None;
    }
    std::str::from_utf8(digits).ok()?.parse().ok()
}

/// Whether a text begins as a deal does.
pub fn opens_deal(text: &[u8]) -> bool {
    text.starts_with(b"D\t")
}

/// The lines of a text, each with its line feed where it has one.
pub fn lines(text: &[u8]) -> impl Iterator<Item = &[u8]> {
    text.split_inclusive(|byte| *byte == b'\n')
}

/// How many lines behind the first one open a deal.
pub fn count_deals(book: &[u8]) -> usize {
    lines(book).skip(1).filter(|line| opens_deal(line)).count()
}

#[cfg(test)]
mod tests {
    use super::*;
    use crate::heading::{with_other_lines, EDITIONS};

    fn read(text: &[u8], edition: u64) -> Option<(u8, Vec<u64>)> {
        Line::read(text, edition).map(|line| (line.letter, line.fields))
    }

    #[test]
    fn texts_under_each_header() {
        let guarantee = [9, 2, 0, 6, 978, 90, 90, 1, 1, 0];
        let line = Line::new(b'G', &guarantee);
        assert_eq!(line.text(1), b"G\t9\t2\t0\t978\t90\t90\t1\t1\t0\n");
        assert_eq!(line.text(2), b"G\t9\t2\t0\t6\t978\t90\t90\t1\t1\t0\n");
        assert_eq!(read(&line.text(2), 2), Some((b'G', guarantee.to_vec())));
        let swap = [9, 2, 0, 6, 978, 90, 90, 1, 1, 0, 1];
        let line = Line::new(b'S', &swap);
        assert_eq!(line.text(1), b"S\t9\t2\t0\t978\t90\t90\t1\t1\t0\t1\n");
        assert_eq!(line.text(3), b"S\t9\t2\t0\t6\t978\t90\t90\t1\t1\t0\t1\n");
        assert_eq!(read(&line.text(3), 3), Some((b'S', swap.to_vec())));
        let terms = [9, 3, 0, 6, 978, 3, 1, 90, 1, 0, 0, 2];
        let line = Line::new(b'D', &terms);
        assert_eq!(line.text(2), b"D\t9\t3\t0\t6\t978\t3\t1\t90\t1\t0\t0\n");
        assert_eq!(read(&line.text(2), 2), Some((b'D', terms.to_vec())));
        // The sovereign's step reads 0, the edition as the header says.
        let terms = [9, 3, 0, 0, 978, 3, 1, 90, 1, 0, 0, 1];
        assert_eq!(read(&line.text(1), 1), Some((b'D', terms.to_vec())));
        // Lines under 3 are those under 2.
        let terms = [9, 3, 0, 6, 978, 3, 1, 90, 1, 0, 0, 3];
        assert_eq!(read(&line.text(2), 3), Some((b'D', terms.to_vec())));
        assert_eq!(line.text(3), line.text(2));
    }

    #[test]
    fn lines_of_another_header_are_malformed() {
        for letter in *b"DCGS" {
            let line = Line::new(letter, &vec![1; width(letter).expect("a known letter")]);
            for edition in EDITIONS {
                assert!(Line::read(&line.text(edition), edition).is_some());
                let another = with_other_lines(edition);
                let readable = Line::read(&line.text(edition), another).is_some();
                assert_eq!(readable, letter == b'C');
            }
        }
    }

    #[test]
    fn malformed_lines() {
        let sound = b"G\t9\t2\t0\t978\t90\t90\t1\t1\t0";
        assert!(Line::read(&[sound, b"\n" as &[u8]].concat(), 1).is_some());
        for end in [b"" as &[u8], b"\t\n", b"\t1\n", b"1.\n", b"\r\n", b"\xff\n"] {
            assert!(Line::read(&[sound, end].concat(), 1).is_none());
        }
        for text in [b"G\n" as &[u8], b"\t1\n", b"GG\t1\n", b"X\t1\n", b"\n", b""] {
            assert!(Line::read(text, 1).is_none());
        }
        for digits in [b"" as &[u8], b"01", b"+1", b"10000000000000"] {
            assert_eq!(number(digits), None);
        }
        assert_eq!(number(b"9999999999999"), Some(9_999_999_999_999));
    }

    #[test]
    fn deals_are_counted_by_how_their_lines_begin() {
        assert_eq!(count_deals(b"D\t\nD\t1\nD\nC\tD\t\n\nD\t"), 2);
        assert_eq!(count_deals(b""), 0);
    }
}
