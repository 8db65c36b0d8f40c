//! A seventeenth item behind sixteen guarantees, behind sixteen swaps and behind
//! some of each: the two share their places. And one that cannot be read, which is 11
//! all the same.

use hadlephoga::{Record, ITEMS};

use crate::cells::{cell, Cells};
use crate::heading::EDITIONS;
use crate::held::{GUARANTEE, LETTERS};
use crate::line::opens_deal;

/// What the sixteen are; or whatever they are, before a line that cannot be read.
const GUARANTEES: u64 = 1;
const SWAPS: u64 = 2;
const BOTH: u64 = 3;
const MALFORMED: u64 = 4;

/// The refusals of a full list and of a line that cannot be read.
const FULL_REFUSED: u64 = 6;
const MALFORMED_REFUSED: u64 = 11;

const IN_LINES: u64 = 1;
const IN_ADDING: u64 = 2;

/// By a line or by adding, edition, letter and what the sixteen are.
pub fn cells(title: &'static str) -> Cells {
    let ways = [IN_LINES, IN_ADDING].into_iter();
    let ways = ways.flat_map(|way| EDITIONS.map(|edition| [way, edition]));
    let ways = ways.flat_map(|[way, edition]| LETTERS.map(|of| [way, edition, of.into()]));
    let cells = ways.flat_map(|[way, edition, letter]| {
        let last = match way {
            IN_LINES => MALFORMED,
            _ => BOTH,
        };
        (GUARANTEES..=last).map(move |before| cell(&[way, edition, letter, before]))
    });
    Cells::new(title, cells)
}

fn before(guarantees: usize) -> u64 {
    match guarantees {
        0 => SWAPS,
        ITEMS => GUARANTEES,
        _ => BOTH,
    }
}

/// Counts the line that was refused so, the last of these.
pub fn meet_line(cells: &mut Cells, lines: &[&[u8]], edition: u64, refusal: u64) {
    let Some((refused, earlier)) = lines.split_last() else {
        return;
    };
    if !LETTERS.contains(&refused[0]) {
        return;
    }
    let of_deal = earlier.iter().rev().take_while(|line| !opens_deal(line));
    let items = of_deal.filter(|line| LETTERS.contains(&line[0]));
    let before = match refusal {
        FULL_REFUSED => before(items.filter(|line| line[0] == b'G').count()),
        MALFORMED_REFUSED if items.count() == ITEMS => MALFORMED,
        _ => return,
    };
    cells.meet(&[IN_LINES, edition, refused[0].into(), before]);
}

/// Counts the item that was to be added to a record, and was refused so.
pub fn meet_added(cells: &mut Cells, letter: u8, record: &Record, refusal: u64) {
    if refusal == FULL_REFUSED && LETTERS.contains(&letter) {
        let held = record.guarantees.iter();
        let guarantees = held.filter(|item| item.instrument == GUARANTEE).count();
        let edition = record.terms.edition;
        cells.meet(&[IN_ADDING, edition, letter.into(), before(guarantees)]);
    }
}

#[cfg(test)]
mod tests {
    use super::*;

    #[test]
    fn every_list_is_listed() {
        assert_eq!(cells("").all(), 3 * 2 * (3 + 4));
    }

    #[test]
    fn what_stands_before_a_line() {
        let met = |letters: &str, last: &[u8], refusal| {
            let mut lines: Vec<&[u8]> = vec![b"D\t1\n", b"G\t1\n", b"S\t1\n", b"D\t1\n"];
            lines.extend(letters.as_bytes().chunks(1));
            lines.push(last);
            let mut met = cells("");
            meet_line(&mut met, &lines, 2, refusal);
            assert_eq!(met.unlisted().count(), 0);
            let met = met.counts().find(|(_, count)| *count > 0);
            met.map(|(cell, _)| [cell[1], cell[2], cell[3]])
        };
        let (of_guarantees, of_swaps) = ("G".repeat(16), "S".repeat(16));
        let full = |letters: &str, last| met(letters, last, FULL_REFUSED);
        let due = |letter: u8, before| Some([2, letter.into(), before]);
        assert_eq!(full(&of_guarantees, b"S"), due(b'S', GUARANTEES));
        assert_eq!(full(&of_swaps, b"G"), due(b'G', SWAPS));
        assert_eq!(full("GCSSSSSSSSSSSSSSS", b"S"), due(b'S', BOTH));
        assert_eq!(full(&of_swaps, b"C"), None);
        let malformed = met(&of_swaps, b"S\t\n", MALFORMED_REFUSED);
        assert_eq!(malformed, due(b'S', MALFORMED));
        assert_eq!(met("S", b"S\t\n", MALFORMED_REFUSED), None);
    }
}
