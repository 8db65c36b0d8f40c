//! Refusals and grounds by number, each to be met wherever it can fall.

use crate::cells::{cell, Cell, Cells};
use crate::heading::EDITIONS;
use crate::held::SWAPS;

/// A letter that is none of D, C, G and S.
pub const OTHER: u64 = b'?' as u64;

pub struct Answers {
    pub books: Cells,
    pub lines: Cells,
    pub records: Cells,
    pub opened: Cells,
    pub added_collateral: Cells,
    pub added_guarantees: Cells,
    pub added_swaps: Cells,
    /// Guarantees and swaps of a number too few or too many, by letter and length, and
    /// whether the record would be refused too.
    pub added_lengths: Cells,
    pub collateral_grounds: Cells,
    pub guarantee_grounds: Cells,
    /// By ground, instrument and edition.
    pub swap_grounds: Cells,
}

impl Answers {
    pub fn new() -> Self {
        let adding = |title| Cells::of_numbers(title, (0..=8).chain([11, 40]));
        Answers {
            books: Cells::of_numbers("refusals of books", [9, 10, 12, 13]),
            lines: Cells::new("refusals of lines by letter", refusals_of_lines()),
            records: Cells::of_numbers("refusals of records", [13, 40]),
            opened: Cells::of_numbers("answers of opening on numbers", (0..=5).chain([11, 13])),
            added_collateral: adding("answers of adding collateral on numbers"),
            added_guarantees: adding("answers of adding guarantees on numbers"),
            added_swaps: adding("answers of adding swaps on numbers"),
            added_lengths: Cells::new(
                "items of other lengths in adding: line, length, record's refusal",
                LENGTHS
                    .into_iter()
                    .flat_map(|[letter, length]| [0, 40].map(|of| cell(&[letter, length, of]))),
            ),
            collateral_grounds: Cells::of_numbers("grounds of collateral", COLLATERAL_GROUNDS),
            guarantee_grounds: Cells::of_numbers("grounds of guarantees", GROUNDS),
            swap_grounds: Cells::new("grounds of swaps: ground, instrument, edition", {
                let grounds = GROUNDS.into_iter();
                let of = grounds.flat_map(|ground| SWAPS.map(|of| [ground, of]));
                of.flat_map(|[ground, of]| EDITIONS.map(|edition| cell(&[ground, of, edition])))
            }),
        }
    }

    pub fn families(&self) -> [&Cells; 11] {
        [
            &self.books,
            &self.lines,
            &self.records,
            &self.opened,
            &self.added_collateral,
            &self.added_guarantees,
            &self.added_swaps,
            &self.added_lengths,
            &self.collateral_grounds,
            &self.guarantee_grounds,
            &self.swap_grounds,
        ]
    }

    /// Counts an item so many numbers long that adding refuses for it, to a record that
    /// reporting answers so.
    pub fn meet_length(&mut self, letter: u8, length: usize, of_record: u64) {
        let of = [letter.into(), length as u64];
        if LENGTHS.contains(&of) {
            self.added_lengths.meet(&[of[0], of[1], of_record]);
        }
    }
}

pub const COLLATERAL_GROUNDS: [u64; 6] = [21, 22, 23, 24, 25, 26];
/// Of guarantees and swaps.
pub const GROUNDS: [u64; 7] = [21, 23, 25, 26, 27, 28, 29];
/// A guarantee as long as a swap and a swap as long as a guarantee among them.
const LENGTHS: [[u64; 2]; 4] = [
    [b'G' as u64, 9],
    [b'G' as u64, 11],
    [b'S' as u64, 10],
    [b'S' as u64, 12],
];

pub fn named(letter: u8) -> u8 {
    match letter {
        b'D' | b'C' | b'G' | b'S' => letter,
        _ => OTHER as u8,
    }
}

/// Opening gives 1 to 5, adding 1 to 8, reading a line 11.
fn refusals_of_lines() -> impl Iterator<Item = Cell> {
    let of = |letter: u8, last| {
        let numbers = (1..=last).chain([11]);
        numbers.map(move |number| cell(&[letter.into(), number]))
    };
    (of(b'D', 5).chain(of(b'C', 8)))
        .chain(of(b'G', 8))
        .chain(of(b'S', 8))
        .chain([cell(&[OTHER, 11])])
}

#[cfg(test)]
mod tests {
    use super::*;

    #[test]
    fn every_refusal_of_a_line_is_listed() {
        assert_eq!(Answers::new().lines.all(), 6 + 9 + 9 + 9 + 1);
        assert_eq!(Answers::new().swap_grounds.all(), 7 * 2 * 3);
    }
}
