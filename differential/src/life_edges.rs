//! Issue lives on both sides of every edge of a band, in each row of the tables
//! and under each edition: where an edition or a type of debt has no such edge, it
//! must make no difference.

use crate::bands::EDGES;
use crate::cells::{cell, Cells};
use crate::heading::EDITIONS;

/// Whose life it is.
pub const OF_COLLATERAL: u64 = 1;
pub const OF_LENT: u64 = 2;

/// Types of debt that can be eligible.
const DEBT: [u64; 4] = [2, 3, 4, 5];
const BANK_DEBT: u64 = 4;

/// Rows of the tables: step 1, steps 2 and 3, and listed senior bank debt without
/// a rating, which uses the second one.
const FIRST: u64 = 1;
const SECOND: u64 = 2;
const UNRATED: u64 = 3;

fn row(whose: u64, goods: u64, step: u64) -> Option<u64> {
    match step {
        1 => Some(FIRST),
        2 | 3 => Some(SECOND),
        0 if whose == OF_COLLATERAL && goods == BANK_DEBT => Some(UNRATED),
        _ => None,
    }
}

/// By edition, whose life, type, row and life.
pub fn cells(title: &'static str) -> Cells {
    let mut cells = Vec::new();
    for (edition, life) in EDITIONS
        .into_iter()
        .flat_map(|of| EDGES.map(|life| (of, life)))
    {
        for (whose, goods) in DEBT
            .into_iter()
            .flat_map(|of| [(OF_COLLATERAL, of), (OF_LENT, of)])
        {
            let rows = [0, 1, 2].into_iter();
            let rows = rows.filter_map(|step| row(whose, goods, step));
            cells.extend(rows.map(|row| cell(&[edition, whose, goods, row, life])));
        }
    }
    Cells::new(title, cells)
}

/// Counts a life whose haircut makes a difference.
pub fn meet(cells: &mut Cells, edition: u64, whose: u64, [goods, step, life]: [u64; 3]) {
    let row = row(whose, goods, step).filter(|_| DEBT.contains(&goods) && EDGES.contains(&life));
    if let Some(row) = row {
        cells.meet(&[edition, whose, goods, row, life]);
    }
}

#[cfg(test)]
mod tests {
    use super::*;

    #[test]
    fn every_edge_is_listed() {
        // Two rows of four types, both of collateral and of goods lent, and the
        // unrated bank debt; four edges, three editions.
        assert_eq!(cells("").all(), (2 * 2 * 4 + 1) * 4 * 2 * 3);
    }

    #[test]
    fn what_has_no_row_is_not_met() {
        let mut met = cells("");
        meet(&mut met, 3, OF_COLLATERAL, [4, 0, 1081]);
        meet(&mut met, 3, OF_LENT, [4, 2, 1081]);
        assert_eq!(met.met(), 2);
        for goods in [[4, 0, 1081], [2, 4, 360], [6, 1, 360], [3, 1, 1082]] {
            meet(&mut met, 3, OF_LENT, goods);
        }
        assert_eq!((met.met(), met.unlisted().count()), (2, 0));
    }
}
