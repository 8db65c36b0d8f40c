//! The first line of a book, and which numbers the lines behind it leave out.

use hadlephoga::Terms;

use crate::random::Random;

/// The editions that a header can say.
pub const EDITIONS: [u64; 3] = [1, 2, 3];
const HEADERS: [&[u8]; 3] = [b"CRM\t1\n", b"CRM\t2\n", b"CRM\t3\n"];
/// Bytes of each header.
pub const HEADER_LENGTH: usize = 6;

/// Places of class, step and sovereign's step in terms, in a guarantee and in a swap.
pub const CLASS: usize = 1;
pub const STEP: usize = 2;
pub const SOVEREIGN_STEP: usize = 3;
/// Place of the currency in terms and in items of both lists.
pub const CURRENCY: usize = 4;
/// Places of the kind and the interval in terms.
pub const KIND: usize = 5;
pub const INTERVAL: usize = 6;
/// Place of the edition in terms.
pub const EDITION: usize = Terms::LENGTH - 1;

pub fn header(edition: u64) -> &'static [u8] {
    match edition {
        1 => HEADERS[0],
        2 => HEADERS[1],
        _ => HEADERS[2],
    }
}

/// One of the other editions.
pub fn another(random: &mut Random, edition: u64) -> u64 {
    let others = Vec::from_iter(EDITIONS.into_iter().filter(|other| *other != edition));
    random.pick(&others)
}

/// An edition whose lines D, G and S are laid out otherwise; 2 and 3 have the same.
pub fn with_other_lines(edition: u64) -> u64 {
    match edition {
        1 => 2,
        _ => 1,
    }
}

/// The edition that the first line of a book says; None where it is no header.
pub fn edition_of(book: &[u8]) -> Option<u64> {
    EDITIONS
        .into_iter()
        .find(|edition| book.starts_with(header(*edition)))
}

/// Whether lines with this letter send the number in this place. The edition
/// stands in the header, and header 1 knows no sovereign's step.
pub fn is_sent(edition: u64, letter: u8, place: usize) -> bool {
    match (letter, place) {
        (b'D', EDITION) => false,
        (b'D' | b'G' | b'S', SOVEREIGN_STEP) => edition != 1,
        _ => true,
    }
}

#[cfg(test)]
mod tests {
    use super::*;

    #[test]
    fn headers() {
        for edition in EDITIONS {
            assert_eq!(header(edition).len(), HEADER_LENGTH);
            assert_eq!(edition_of(header(edition)), Some(edition));
        }
        for book in [b"" as &[u8], b"CRM\t3", b"CRM\t4\n", b"CRM\t23\n"] {
            assert_eq!(edition_of(book), None);
        }
    }

    #[test]
    fn other_editions() {
        for edition in EDITIONS {
            let others = (0..100).map(|number| another(&mut Random::new(47, number), edition));
            let mut others = Vec::from_iter(others.chain([edition]));
            others.sort();
            others.dedup();
            assert_eq!(others, EDITIONS);
            let sent = |edition| is_sent(edition, b'G', SOVEREIGN_STEP);
            assert_ne!(sent(edition), sent(with_other_lines(edition)));
        }
    }
}
