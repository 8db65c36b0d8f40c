//! A book as a mail program leaves it: spaces for tabs, returns before line feeds.

use crate::random::Random;

/// What the program does.
#[derive(Clone, Copy, Debug, PartialEq, Eq)]
pub enum Manner {
    Nothing,
    Tabs,
    Feeds,
    Both,
}

pub const MANNERS: [Manner; 4] = [Manner::Nothing, Manner::Tabs, Manner::Feeds, Manner::Both];

/// Spaces for a tab, and returns before a line feed: at least and at most. Where there are
/// none, tabs stay.
#[derive(Clone, Copy)]
pub struct Widths {
    pub spaces: [u64; 2],
    pub returns: [u64; 2],
}

const NONE: [u64; 2] = [0, 0];

impl Manner {
    /// The same for every tab and every feed of a book, or others for each.
    fn widths(self, random: &mut Random) -> Widths {
        let spaces = random.pick(&[[1, 1], [8, 8], [1, 8], [1, 8]]);
        let returns = random.pick(&[[1, 1], [1, 1], [0, 3], [0, 3]]);
        let (spaces, returns) = match self {
            Manner::Nothing => (NONE, NONE),
            Manner::Tabs => (spaces, NONE),
            Manner::Feeds => (NONE, returns),
            Manner::Both => (spaces, returns),
        };
        Widths { spaces, returns }
    }
}

pub fn mangled(random: &mut Random, book: &[u8], manner: Manner) -> Vec<u8> {
    let widths = manner.widths(random);
    widened(random, book, widths)
}

pub fn widened(random: &mut Random, book: &[u8], widths: Widths) -> Vec<u8> {
    let mut text = Vec::with_capacity(book.len() * 3);
    let mut of = |[least, most]: [u64; 2]| random.between(least, most) as usize;
    for byte in book {
        match *byte {
            b'\t' if widths.spaces != NONE => text.resize(text.len() + of(widths.spaces), b' '),
            b'\n' => {
                text.resize(text.len() + of(widths.returns), b'\r');
                text.push(b'\n');
            }
            other => text.push(other),
        }
    }
    text
}

/// Whether repairing what became of a book gives the book back: it has no spaces, no tab
/// beside a tab, and no return before a line feed.
pub fn comes_back(book: &[u8]) -> bool {
    let beside = |pair: &[u8]| pair == b"\t\t" || pair == b"\r\n";
    !book.contains(&b' ') && !book.windows(2).any(beside)
}

#[cfg(test)]
mod tests {
    use super::*;

    #[test]
    fn what_becomes_of_tabs_and_feeds() {
        let book = b"D\t1\t2\nC\n\r";
        for number in 0..50 {
            let text = |manner| mangled(&mut Random::new(61, number), book, manner);
            assert_eq!(text(Manner::Nothing), book);
            assert!(!text(Manner::Tabs).contains(&b'\t'));
            assert_eq!(text(Manner::Tabs).split(|byte| *byte == b'\r').count(), 2);
            assert!(!text(Manner::Feeds).contains(&b' '));
            let both = text(Manner::Both);
            let without = both.iter().filter(|byte| !b" \r".contains(byte));
            assert_eq!(Vec::from_iter(without.copied()), b"D12\nC\n");
        }
        let both = |number| mangled(&mut Random::new(61, number), book, Manner::Both);
        let counted = |sought: u8| {
            let counts = (0..200).map(|number| {
                let text = both(number);
                text.iter().filter(|byte| **byte == sought).count()
            });
            let counts = Vec::from_iter(counts);
            [counts.iter().min().copied(), counts.iter().max().copied()]
        };
        assert_eq!(counted(b' '), [Some(2), Some(16)]);
        // One return stands at the end.
        assert_eq!(counted(b'\r'), [Some(1), Some(7)]);
    }

    #[test]
    fn books_that_come_back() {
        assert!(comes_back(b"CRM\t1\nD\t1\r"));
        for book in [b"CRM 1\n" as &[u8], b"D\t\t1\n", b"D\r\n"] {
            assert!(!comes_back(book));
        }
    }
}
