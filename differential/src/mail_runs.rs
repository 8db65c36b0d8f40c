//! Runs of spaces and of returns of a mailed text, by their length and by what stands on
//! either side.

use crate::cells::{cell, Cell, Cells};

/// A thousand and more count as one.
const LENGTHS: [u64; 5] = [1, 2, 3, 8, 1000];

/// What stands beside a run. The text's end and a line feed before one: it begins the first
/// line, or a later one.
const END: u64 = 1;
const FEED: u64 = 2;
const TAB: u64 = 3;
const OTHER: u64 = 4;
const SPACE: u64 = 5;
const RETURN: u64 = 6;
/// Behind spaces: returns that are dropped, and returns that stay.
const DROPPED: u64 = 7;
const KEPT: u64 = 8;

/// So many of a text are counted.
const MOST: usize = 30;

pub struct Runs {
    spaces: Cells,
    returns: Cells,
}

fn cells(before: &[u64], behind: &[u64]) -> Vec<Cell> {
    let mut cells = Vec::new();
    for length in LENGTHS {
        for before in before {
            cells.extend(
                behind
                    .iter()
                    .map(|behind| cell(&[length, *before, *behind])),
            );
        }
    }
    cells
}

impl Runs {
    pub fn new() -> Self {
        Runs {
            spaces: Cells::new(
                "mail, runs of spaces: length, behind what, before what",
                cells(
                    &[END, FEED, TAB, OTHER, RETURN],
                    &[END, FEED, TAB, OTHER, DROPPED, KEPT],
                ),
            ),
            returns: Cells::new(
                "mail, runs of returns: length, behind what, before what",
                cells(
                    &[END, FEED, TAB, OTHER, SPACE],
                    &[END, FEED, TAB, OTHER, SPACE],
                ),
            ),
        }
    }

    pub fn families(&self) -> [&Cells; 2] {
        [&self.spaces, &self.returns]
    }

    pub fn meet(&mut self, text: &[u8]) {
        let mut from = 0;
        let runs = text.chunk_by(|one, next| one == next);
        let runs = runs.map(|run| {
            from += run.len();
            (run[0], from - run.len()..from)
        });
        let runs = runs.filter(|(byte, _)| b" \r".contains(byte));
        for (byte, run) in runs.take(MOST) {
            let Some(length) = length(run.len() as u64) else {
                continue;
            };
            let before = sort(run.start.checked_sub(1).map(|place| text[place]));
            let behind = &text[run.end..];
            match byte {
                b' ' => (self.spaces).meet(&[length, before, behind_spaces(behind)]),
                _ => (self.returns).meet(&[length, before, sort(behind.first().copied())]),
            }
        }
    }
}

fn length(of: u64) -> Option<u64> {
    let of = of.min(LENGTHS[4]);
    LENGTHS.contains(&of).then_some(of)
}

fn sort(byte: Option<u8>) -> u64 {
    match byte {
        None => END,
        Some(b'\n') => FEED,
        Some(b'\t') => TAB,
        Some(b' ') => SPACE,
        Some(b'\r') => RETURN,
        Some(_) => OTHER,
    }
}

fn behind_spaces(text: &[u8]) -> u64 {
    let ends = text.iter().find(|byte| **byte != b'\r');
    match (sort(text.first().copied()), ends) {
        (RETURN, Some(b'\n')) => DROPPED,
        (RETURN, _) => KEPT,
        (sort, _) => sort,
    }
}

#[cfg(test)]
mod tests {
    use super::*;

    /// What is met of spaces, and of returns.
    fn met(text: &[u8]) -> [Vec<[u64; 3]>; 2] {
        let mut runs = Runs::new();
        runs.meet(text);
        runs.families().map(|cells| {
            assert_eq!(cells.unlisted().count(), 0);
            let met = cells.counts().filter(|(_, count)| *count > 0);
            Vec::from_iter(met.map(|(cell, _)| [cell[0], cell[1], cell[2]]))
        })
    }

    #[test]
    fn neighbours() {
        let none = Vec::new;
        assert_eq!(met(b"  "), [vec![[2, END, END]], none()]);
        assert_eq!(met(b"\n \t"), [vec![[1, FEED, TAB]], none()]);
        assert_eq!(met(b"\t   A"), [vec![[3, TAB, OTHER]], none()]);
        assert_eq!(met(b"A    A"), [none(), none()]);
        assert_eq!(met(b"A\r\r\n"), [none(), vec![[2, OTHER, FEED]]]);
        assert_eq!(met(&[b'\r'; 1001]), [none(), vec![[1000, END, END]]]);
        let both = [vec![[1, END, KEPT]], vec![[1, SPACE, TAB]]];
        assert_eq!(met(b" \r\t"), both);
        let both = [vec![[1, END, KEPT]], vec![[1, SPACE, END]]];
        assert_eq!(met(b" \r"), both);
        let returns = vec![[1, END, SPACE], [2, SPACE, FEED]];
        assert_eq!(met(b"\r \r\r\n"), [vec![[1, RETURN, DROPPED]], returns]);
    }

    #[test]
    fn every_run_is_listed() {
        let runs = Runs::new();
        assert_eq!(runs.families().map(|cells| cells.all()), [150, 125]);
    }
}
