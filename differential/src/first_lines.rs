//! First lines of books: the headers, and the lines next to them that are none.

use crate::cells::{cell, Cells};
use crate::heading::{with_other_lines, EDITIONS};
use crate::held::LETTERS;
use crate::line::Line;
use crate::random::Random;

/// First lines by their second field: a digit for itself, and these.
const TWO_DIGITS: u64 = 10;
const EMPTY: u64 = 11;
const NONE: u64 = 12;
/// A third field behind a header's two.
const THIRD_FIELD: u64 = 13;

/// Next to the last header: the likeliest to be taken for one.
const NEXT: &[u8] = b"CRM\t4\n";
const NO_HEADERS: &[&[u8]] = &[
    b"CRM\t0\n",
    NEXT,
    b"CRM\t5\n",
    b"CRM\t6\n",
    b"CRM\t7\n",
    b"CRM\t8\n",
    b"CRM\t9\n",
    b"CRM\t03\n",
    b"CRM\t10\n",
    b"CRM\t12\n",
    b"CRM\t23\n",
    b"CRM\t31\n",
    b"CRM\t\n",
    b"CRM\n",
    b"CRM\t1\t\n",
    b"CRM\t1\t2\n",
    b"CRM\t2\t\n",
    b"CRM\t2\tS\n",
    b"CRM\t3\t\n",
    b"CRM\t3\tS\n",
];

/// A first line that is nearly a header.
pub fn no_header(random: &mut Random) -> &'static [u8] {
    match random.percent(20) {
        true => NEXT,
        false => random.pick(NO_HEADERS),
    }
}

pub struct FirstLines {
    /// Headers of books that have a deal which is not refused, and first lines
    /// that are refused.
    said: Cells,
    /// Lines laid out as another header has them, by header and letter.
    lines_of_another: Cells,
    /// Lines G laid out as S, and S as G, by header and letter.
    other_letters: Cells,
}

impl FirstLines {
    pub fn new() -> Self {
        let lines = EDITIONS.map(|edition| b"DGS".map(|letter| cell(&[edition, letter.into()])));
        FirstLines {
            said: Cells::of_numbers(
                "first lines: digit, two digits, empty, none, a third field",
                0..=THIRD_FIELD,
            ),
            lines_of_another: Cells::new(
                "malformed lines of another header: header, line",
                lines.into_iter().flatten(),
            ),
            other_letters: Cells::new(
                "malformed lines of the other letter: header, line",
                EDITIONS
                    .into_iter()
                    .flat_map(|edition| LETTERS.map(|letter| cell(&[edition, letter.into()]))),
            ),
        }
    }

    pub fn families(&self) -> [&Cells; 3] {
        [&self.said, &self.lines_of_another, &self.other_letters]
    }

    /// Counts the first line of a book with an accepted deal, or of one that is
    /// refused for it.
    pub fn meet(&mut self, first_line: &[u8], accepted: bool) {
        let said = match first_line.strip_prefix(b"CRM") {
            Some([b'\t', digit @ b'0'..=b'9', b'\n']) => u64::from(digit - b'0'),
            Some([b'\t', b'0'..=b'9', b'0'..=b'9', b'\n']) => TWO_DIGITS,
            Some([b'\t', b'\n']) => EMPTY,
            Some([b'\n']) => NONE,
            Some([b'\t', b'1'..=b'3', b'\t', .., b'\n']) => THIRD_FIELD,
            _ => return,
        };
        if accepted == EDITIONS.contains(&said) {
            self.said.meet(&[said]);
        }
    }

    /// Counts a malformed line of a book of this edition that would be read under
    /// a header with other lines, or with the other letter of G and S.
    pub fn meet_line(&mut self, edition: u64, text: &[u8]) {
        if let Some(line) = Line::read(text, with_other_lines(edition)) {
            self.lines_of_another.meet(&[edition, line.letter.into()]);
        }
        if let Some(other) = with_other_letter(text) {
            if Line::read(&other, edition).is_some() {
                self.other_letters.meet(&[edition, text[0].into()]);
            }
        }
    }
}

/// A line G with the letter S, or a line S with the letter G.
pub fn with_other_letter(text: &[u8]) -> Option<Vec<u8>> {
    let other = match text.first()? {
        b'G' => b'S',
        b'S' => b'G',
        _ => return None,
    };
    Some([&[other], &text[1..]].concat())
}

#[cfg(test)]
mod tests {
    use super::*;
    use crate::deal::deal_with;
    use crate::heading::{edition_of, header};

    #[test]
    fn first_lines() {
        let mut met = FirstLines::new();
        for line in NO_HEADERS {
            assert_eq!(edition_of(line), None);
            met.meet(line, false);
        }
        for edition in EDITIONS {
            met.meet(header(edition), false);
        }
        assert_eq!(met.said.met(), met.said.all() - EDITIONS.len());
        for edition in EDITIONS {
            met.meet(header(edition), true);
        }
        assert_eq!(met.said.met(), met.said.all());
        met.meet(b"CRN\t1\n", false);
        assert_eq!(met.said.unlisted().count(), 0);
    }

    #[test]
    fn lines_of_another_header() {
        let mut met = FirstLines::new();
        for edition in EDITIONS {
            for line in deal_with(&mut Random::new(29, edition), edition, 0, 1) {
                met.meet_line(edition, &line.text(edition));
                met.meet_line(edition, b"D\t1\n");
            }
        }
        assert_eq!(met.lines_of_another.met(), 0);
        assert_eq!(met.other_letters.met(), 0);
        for number in 0..30 {
            let edition = number % 3 + 1;
            for line in deal_with(&mut Random::new(29, number), edition, 0, 3) {
                met.meet_line(edition, &line.text(with_other_lines(edition)));
                let other = with_other_letter(&line.text(edition));
                met.meet_line(edition, &other.unwrap_or_default());
            }
        }
        assert_eq!(met.other_letters.met(), met.other_letters.all());
        assert_eq!(met.lines_of_another.met(), met.lines_of_another.all());
    }
}
