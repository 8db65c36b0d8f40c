//! Mailed texts at the limits: of one byte or one pair throughout, of 65,536 bytes and one
//! more, and with the most lines.

use hadlephoga::BOOK_LIMIT;

/// A text of one unit throughout, with what stands at its end.
pub struct Whole {
    unit: &'static [u8],
    end: &'static [u8],
}

pub const WHOLES: [Whole; 8] = [
    Whole::of(b" ", b""),
    Whole::of(b"\r", b""),
    Whole::of(b"\r", b"\n"),
    Whole::of(b"\n", b""),
    Whole::of(b" \n", b""),
    Whole::of(b"\r\n", b""),
    Whole::of(b"\t", b""),
    Whole::of(b"\0", b""),
];

impl Whole {
    const fn of(unit: &'static [u8], end: &'static [u8]) -> Self {
        Whole { unit, end }
    }

    /// Cut inside a pair where it must be.
    pub fn text(&self, length: usize) -> Vec<u8> {
        let units = self.unit.iter().cycle();
        let units = units.take(length.saturating_sub(self.end.len()));
        units.chain(self.end).copied().collect()
    }
}

/// Lines that differ from those of a clean text in the last alone.
fn last_line_altered(lines: usize) -> Vec<u8> {
    [&vec![b'\n'; lines - 1] as &[u8], b" "].concat()
}

/// As many line feeds behind a return as fit, but one.
fn one_pair_less() -> Vec<u8> {
    b"\r\n".repeat(BOOK_LIMIT / 2 - 1)
}

/// The text of this number; None behind the last.
pub fn at_limit(number: u64) -> Option<Vec<u8>> {
    let wholes = WHOLES.len() as u64;
    let whole = |length: usize| WHOLES[(number % wholes) as usize].text(length);
    match number / wholes {
        0 => Some(whole(BOOK_LIMIT)),
        1 => Some(whole(BOOK_LIMIT + 1)),
        2 => match number % wholes {
            0 => Some(Vec::new()),
            1 => Some(last_line_altered(BOOK_LIMIT)),
            2 => Some(last_line_altered(BOOK_LIMIT - 1)),
            3 => Some(one_pair_less()),
            // What 16 bits would cut to nothing.
            4 => Some(vec![b' '; 2 * BOOK_LIMIT]),
            // Too long by one, though next to nothing is left of it.
            5 => Some([&vec![b' '; BOOK_LIMIT - 2] as &[u8], b"\n \n"].concat()),
            6 => Some(WHOLES[5].text(BOOK_LIMIT - 1)),
            _ => None,
        },
        _ => None,
    }
}

#[cfg(test)]
mod tests {
    use super::*;

    #[test]
    fn wholes() {
        assert_eq!(WHOLES[2].text(3), b"\r\r\n");
        assert_eq!(WHOLES[2].text(1), b"\n");
        assert_eq!(WHOLES[4].text(3), b" \n ");
        let lengths = (0..16).map(|number| at_limit(number).map(|text| text.len()));
        let due = [[Some(65_536); 8], [Some(65_537); 8]].concat();
        assert_eq!(Vec::from_iter(lengths), due);
    }

    #[test]
    fn the_others() {
        let lengths = (16..24).map(|number| at_limit(number).map(|text| text.len()));
        let due = [0, 65_536, 65_535, 65_534, 131_072, 65_537, 65_535].map(Some);
        assert_eq!(Vec::from_iter(lengths), [due.as_slice(), &[None]].concat());
        assert!((23..1000).all(|number| at_limit(number).is_none()));
    }
}
