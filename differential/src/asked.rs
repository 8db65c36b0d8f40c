//! Who is asked: both sides, compared with each other, or one of them by itself.

use std::fmt::Debug;

use hadlephoga::{BookReply, RECORD_LENGTH, REPORT_LENGTH};

use crate::compare::{self, differ, Difference, Left};
use crate::random::Random;
use crate::sides::Side;
use crate::tally::Tally;

#[derive(Clone, Copy, Debug, PartialEq, Eq)]
pub enum Asked {
    Both,
    One(Side),
}

/// A refusal or 0, and a report.
pub type Reported = (u64, [u64; REPORT_LENGTH]);

impl Asked {
    pub fn report(
        self,
        random: &mut Random,
        record: &[u64; RECORD_LENGTH],
        tally: &mut Tally,
    ) -> Result<Reported, Difference> {
        match self {
            Asked::Both => compare::report(random, record, tally),
            Asked::One(side) => Ok(side.report(record)),
        }
    }

    /// The reply to a book that comes from another, and its results in a list of this length.
    pub fn answer(
        self,
        book: &[u8],
        length: usize,
        tally: &mut Tally,
    ) -> Result<(BookReply, Vec<u64>), Difference> {
        match self {
            Asked::Both => compare::answers(book, length, tally).map_err(|difference| {
                let left = left(book);
                Difference { left, ..difference }
            }),
            Asked::One(side) => {
                let mut results = vec![0; length];
                let reply = side.answer_book(book, &mut results);
                Ok((reply, results))
            }
        }
    }

    /// A law that does not hold between what was answered first and what was then.
    pub fn broken(
        self,
        about: &str,
        deal: String,
        before: impl Debug,
        after: impl Debug,
    ) -> Difference {
        let said = format!("{before:?}, then {after:?}");
        let mut difference = differ(about, deal, (), ());
        [difference.proved, difference.reference] = match self {
            Asked::Both => [said, "the same".into()],
            Asked::One(Side::Proved) => [said, "not asked".into()],
            Asked::One(Side::Reference) => ["not asked".into(), said],
        };
        difference
    }

    /// The same of a book that comes from another.
    pub fn broken_book(
        self,
        about: &str,
        book: &[u8],
        before: impl Debug,
        after: impl Debug,
    ) -> Difference {
        let text = format!("entered otherwise:\n{}", String::from_utf8_lossy(book));
        let difference = self.broken(about, text, before, after);
        Difference {
            left: left(book),
            ..difference
        }
    }
}

/// The book as it was entered otherwise, which is what shows a difference.
fn left(book: &[u8]) -> Option<Box<Left>> {
    Left::new("book entered otherwise", book.to_vec())
}

#[cfg(test)]
mod tests {
    use super::*;
    use crate::sides::SIDES;

    #[test]
    fn each_says_what_a_broken_law_is_of() {
        let said = |asked: Asked| {
            let broken = asked.broken("order", String::new(), 1, 2);
            assert_eq!(broken.about, "order");
            [broken.proved, broken.reference]
        };
        assert_eq!(said(Asked::Both), ["1, then 2", "the same"]);
        let [proved, reference] = SIDES.map(|side| said(Asked::One(side)));
        assert_eq!(proved, ["1, then 2", "not asked"]);
        assert_eq!(reference, ["not asked", "1, then 2"]);
    }

    #[test]
    fn a_book_that_comes_from_another_is_left() {
        let broken = Asked::Both.broken_book("order", b"CRM\t1\n", 1, 2);
        let left = broken.left.expect("a book");
        assert_eq!(
            (left.what, &left.bytes[..]),
            ("book entered otherwise", b"CRM\t1\n" as &[u8])
        );
    }

    #[test]
    fn a_record_of_zeros_is_refused_by_each() {
        let random = &mut Random::new(179, 1);
        for asked in [Asked::Both, Asked::One(SIDES[0]), Asked::One(SIDES[1])] {
            let tally = &mut Tally::new();
            let reply = asked.report(random, &[0; RECORD_LENGTH], tally);
            assert!(reply.is_ok_and(|reply| reply == (40, [0; REPORT_LENGTH])));
            let answer = asked.answer(b"CRM\t1\nD\t\n", 4, tally);
            assert!(answer.is_ok_and(|(_, results)| results == [1, 11, 2, 0]));
        }
    }
}
