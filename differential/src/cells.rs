//! Cases that a run should meet, each counted.

use std::collections::BTreeMap;

/// A case by its numbers, filled up with zeros.
pub type Cell = [u64; 7];

pub struct Cells {
    pub title: &'static str,
    counts: BTreeMap<Cell, u64>,
    /// Cases met that nobody listed.
    unlisted: BTreeMap<Cell, u64>,
}

impl Cells {
    pub fn new(title: &'static str, cells: impl IntoIterator<Item = Cell>) -> Self {
        Cells {
            title,
            counts: cells.into_iter().map(|cell| (cell, 0)).collect(),
            unlisted: BTreeMap::new(),
        }
    }

    /// Cells of one number each.
    pub fn of_numbers(title: &'static str, numbers: impl IntoIterator<Item = u64>) -> Self {
        Cells::new(title, numbers.into_iter().map(|number| cell(&[number])))
    }

    pub fn meet(&mut self, numbers: &[u64]) {
        let cell = cell(numbers);
        match self.counts.get_mut(&cell) {
            Some(count) => *count += 1,
            None => *self.unlisted.entry(cell).or_default() += 1,
        }
    }

    pub fn all(&self) -> usize {
        self.counts.len()
    }

    pub fn met(&self) -> usize {
        self.counts.values().filter(|count| **count > 0).count()
    }

    /// How often the case was met that was met least.
    pub fn least(&self) -> u64 {
        self.counts.values().copied().min().unwrap_or(0)
    }

    pub fn never_met(&self) -> impl Iterator<Item = &Cell> {
        let never = self.counts.iter().filter(|(_, count)| **count == 0);
        never.map(|(cell, _)| cell)
    }

    pub fn unlisted(&self) -> impl Iterator<Item = &Cell> {
        self.unlisted.keys()
    }

    pub fn counts(&self) -> impl Iterator<Item = (&Cell, u64)> {
        self.counts.iter().map(|(cell, count)| (cell, *count))
    }
}

pub fn cell(numbers: &[u64]) -> Cell {
    let mut cell = [0; 7];
    cell[..numbers.len()].copy_from_slice(numbers);
    cell
}

#[cfg(test)]
mod tests {
    use super::*;

    #[test]
    fn counting() {
        let mut cells = Cells::of_numbers("numbers", [4, 5]);
        cells.meet(&[5]);
        assert_eq!((cells.met(), cells.all(), cells.least()), (1, 2, 0));
        assert_eq!(cells.never_met().collect::<Vec<_>>(), [&cell(&[4])]);
        assert_eq!(cells.unlisted().count(), 0);
        cells.meet(&[6]);
        assert_eq!(cells.unlisted().count(), 1);
    }
}
