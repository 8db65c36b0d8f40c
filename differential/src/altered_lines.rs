//! Lines of a mailed text that a repair alters, and those that it leaves.

use crate::cells::{cell, Cells};
use crate::line::lines;

/// What a repair does to a line.
#[derive(Clone, Copy, Debug, PartialEq, Eq)]
enum Change {
    Clean = 1,
    /// Nothing, though there are returns.
    Kept,
    /// Spaces that stand alone become tabs: as many bytes as before.
    SameLength,
    Spaces,
    Returns,
    Both,
}

use Change::*;

const CHANGES: [Change; 6] = [Clean, Kept, SameLength, Spaces, Returns, Both];

/// Where a line stands; the last one with a line feed or without.
const ONLY: u64 = 1;
const ONLY_OPEN: u64 = 2;
const FIRST: u64 = 3;
const MIDDLE: u64 = 4;
const LAST: u64 = 5;
const LAST_OPEN: u64 = 6;

/// Of longer texts no line is counted.
const LONGEST: usize = 2000;

pub struct AlteredLines {
    places: Cells,
    /// Line by line.
    neighbours: Cells,
    numbers: Cells,
    counts: Cells,
}

/// What is wrong where a count, or a number, is cut or turns negative.
const NUMBERS: [u64; 8] = [1, 2, 255, 256, 257, 32_768, 65_535, 65_536];
const COUNTS: [u64; 8] = [0, 1, 2, 255, 256, 257, 32_767, 32_768];

impl AlteredLines {
    pub fn new() -> Self {
        let places = (ONLY..=LAST_OPEN).flat_map(|place| {
            let open = [ONLY_OPEN, LAST_OPEN].contains(&place);
            let changes = CHANGES.into_iter();
            let changes = changes.filter(move |change| !open || !matches!(change, Returns | Both));
            changes.map(move |change| cell(&[place, change as u64]))
        });
        let neighbours = CHANGES
            .into_iter()
            .flat_map(|earlier| CHANGES.map(|change| cell(&[earlier as u64, change as u64])));
        AlteredLines {
            places: Cells::new("mail, lines: place, what is altered", places),
            neighbours: Cells::new("mail, lines: what is altered before, and here", neighbours),
            numbers: Cells::of_numbers("mail, numbers of altered lines", NUMBERS),
            counts: Cells::of_numbers("mail, counts of altered lines", COUNTS),
        }
    }

    pub fn families(&self) -> [&Cells; 4] {
        [&self.places, &self.neighbours, &self.numbers, &self.counts]
    }

    /// Counts a text that was repaired, with the numbers of its altered lines.
    pub fn meet(&mut self, text: &[u8], altered: &[u64]) {
        for number in NUMBERS {
            if altered.binary_search(&number).is_ok() {
                self.numbers.meet(&[number]);
            }
        }
        let count = altered.len() as u64;
        if COUNTS.contains(&count) {
            self.counts.meet(&[count]);
        }
        if text.len() <= LONGEST {
            self.meet_lines(text);
        }
    }

    fn meet_lines(&mut self, text: &[u8]) {
        let mut lines = lines(text).peekable();
        let mut earlier = None;
        while let Some(line) = lines.next() {
            let change = change(line);
            let open = u64::from(!line.ends_with(b"\n"));
            let place = match (earlier, lines.peek()) {
                (None, None) => ONLY + open,
                (None, Some(_)) => FIRST,
                (Some(_), Some(_)) => MIDDLE,
                (Some(_), None) => LAST + open,
            };
            self.places.meet(&[place, change as u64]);
            if let Some(earlier) = earlier {
                self.neighbours.meet(&[earlier as u64, change as u64]);
            }
            earlier = Some(change);
        }
    }
}

fn change(line: &[u8]) -> Change {
    let spaces = line.contains(&b' ');
    let dropped = line.ends_with(b"\r\n");
    match (spaces, dropped) {
        (true, true) => Both,
        (true, false) if line.windows(2).any(|pair| pair == b"  ") => Spaces,
        (true, false) => SameLength,
        (false, true) => Returns,
        (false, false) if line.contains(&b'\r') => Kept,
        (false, false) => Clean,
    }
}

#[cfg(test)]
mod tests {
    use super::*;

    #[test]
    fn changes() {
        for (line, due) in [
            (b"\n" as &[u8], Clean),
            (b"A\tB", Clean),
            (b"A\r", Kept),
            (b"A\rB\n", Kept),
            (b" A \n", SameLength),
            (b"\r \n", SameLength),
            (b"A  B \n", Spaces),
            (b"A\r\r\n", Returns),
            (b" \r\n", Both),
        ] {
            assert_eq!(change(line), due, "{}", line.escape_ascii());
        }
    }

    #[test]
    fn places_and_neighbours() {
        let mut met = AlteredLines::new();
        met.meet(b"A\n \nB\r\nC", &[2, 3]);
        let [places, neighbours, numbers, counts] = met.families().map(|cells| {
            assert_eq!(cells.unlisted().count(), 0);
            let met = cells.counts().filter(|(_, count)| *count > 0);
            Vec::from_iter(met.map(|(cell, _)| [cell[0], cell[1]]))
        });
        let at = |place, change| [place, change as u64];
        let due = [
            at(FIRST, Clean),
            at(MIDDLE, SameLength),
            at(MIDDLE, Returns),
            at(LAST_OPEN, Clean),
        ];
        assert_eq!(places, due);
        let due = [[Clean, SameLength], [SameLength, Returns], [Returns, Clean]];
        let mut due = due.map(|pair| pair.map(|change| change as u64));
        due.sort();
        assert_eq!(neighbours, due);
        assert_eq!([numbers, counts], [[[2, 0]], [[2, 0]]]);
    }

    #[test]
    fn every_line_is_listed() {
        let all = AlteredLines::new();
        assert_eq!(all.families().map(|cells| cells.all()), [32, 36, 8, 8]);
    }
}
