//! Haircuts of netting sets by table, type, step and life band, by interval and by side of the
//! net: each to be met where a millionth more or less would change E*.

use reference::{NettingSet, Position};

use crate::bands::{self, band, EDGES};
use crate::cells::{cell, Cell, Cells};
use crate::draft::goods_of;
use crate::nets::{Net, Nets, Netted};
use crate::set::{LENT, RECEIVED, TABLES};
use crate::set_goods::is_eligible;
use crate::table_haircuts::{self, CURRENCY};
use crate::values::{has_step, DAYS_LIMIT};

/// What the haircut is of.
const OF_SECURITY: u64 = 1;
const OF_NOT_ELIGIBLE: u64 = 2;
const OF_CURRENCY: u64 = 3;

pub struct NetFigures {
    goods: Cells,
    edges: Cells,
    intervals: Cells,
}

/// Each side that the net of such goods can have.
fn sides(goods: [u64; 3]) -> Vec<u64> {
    match is_eligible(goods) {
        true => vec![LENT, RECEIVED],
        false => vec![LENT],
    }
}

/// Each sort of securities: table, type, step and a life of each band.
fn sorts() -> Vec<(u64, [u64; 3])> {
    let mut sorts = Vec::new();
    for (table, goods) in TABLES
        .into_iter()
        .flat_map(|table| (2..=9).map(move |goods| (table, goods)))
    {
        match has_step(goods) {
            true => sorts.extend((0..=6).flat_map(|step| {
                let mut lives = Vec::from_iter(EDGES.into_iter().chain([DAYS_LIMIT]));
                lives.dedup_by_key(|life| band(table, goods, *life));
                lives
                    .into_iter()
                    .map(move |life| (table, [goods, step, life]))
            })),
            false => sorts.push((table, [goods, 0, 0])),
        }
    }
    sorts
}

fn goods() -> impl Iterator<Item = Cell> {
    sorts().into_iter().flat_map(|(table, of)| {
        let [goods, step, life] = of;
        let band = band(table, goods, life);
        let sides = sides(of).into_iter();
        sides.map(move |side| cell(&[table, goods, step, band, side]))
    })
}

/// Rows of the tables: step 1, steps 2 and 3.
fn row(goods: u64, step: u64) -> Option<u64> {
    match (goods, step) {
        (2..=5, 1) => Some(1),
        (2..=5, 2 | 3) => Some(2),
        _ => None,
    }
}

fn edges() -> impl Iterator<Item = Cell> {
    let tables = TABLES.into_iter();
    let lives = tables.flat_map(|table| EDGES.map(|life| [table, life]));
    let goods = lives.flat_map(|[table, life]| [2, 3, 4, 5].map(|goods| [table, life, goods]));
    goods.flat_map(|[table, life, goods]| {
        let rows = [[1, LENT], [1, RECEIVED], [2, LENT], [2, RECEIVED]];
        rows.map(|[row, side]| cell(&[table, goods, row, life, side]))
    })
}

fn intervals() -> impl Iterator<Item = Cell> {
    let haircuts = TABLES.into_iter().flat_map(|table| {
        let own = table_haircuts::all(table).into_iter();
        let own = own.filter(|haircut| *haircut > 0);
        let own = own.map(|haircut| [OF_SECURITY, haircut]);
        let others = [
            [OF_NOT_ELIGIBLE, table_haircuts::not_eligible(table)],
            [OF_CURRENCY, CURRENCY],
        ];
        own.chain(others)
            .map(move |[of, haircut]| [table, of, haircut])
    });
    haircuts.flat_map(|[table, of, haircut]| {
        (1..=60).map(move |interval| cell(&[table, of, haircut, interval]))
    })
}

impl NetFigures {
    pub fn new() -> Self {
        NetFigures {
            goods: Cells::new("sets, haircuts: table, type, step, band, net", goods()),
            edges: Cells::new("sets, edges of bands: table, type, row, life, net", edges()),
            intervals: Cells::new(
                "sets, haircuts: table, of what, haircut, interval",
                intervals(),
            ),
        }
    }

    pub fn families(&self) -> [&Cells; 3] {
        [&self.goods, &self.edges, &self.intervals]
    }

    /// An accepted set and what it comes to.
    pub fn meet(&mut self, set: &NettingSet, nets: &Nets) {
        for net in nets.nets.iter().filter(|net| nets.tells(net)) {
            let of = match net.of {
                Netted::Currency(_) => OF_CURRENCY,
                Netted::Security(number) => {
                    let mut entries = set.positions.iter();
                    match entries.find(|one| one.security == number) {
                        Some(one) => self.meet_goods(set.table, net, one),
                        None => continue,
                    }
                }
            };
            self.intervals
                .meet(&[set.table, of, net.haircut, set.interval]);
        }
    }

    /// A security's net, with one of its entries.
    fn meet_goods(&mut self, table: u64, net: &Net, one: &Position) -> u64 {
        let side = match net.signed() > 0 {
            true => LENT,
            false => RECEIVED,
        };
        let [goods, step, life] = goods_of(one);
        let band = bands::band(table, goods, life);
        self.goods.meet(&[table, goods, step, band, side]);
        if let Some(row) = row(goods, step).filter(|_| EDGES.contains(&life)) {
            self.edges.meet(&[table, goods, row, life, side]);
        }
        match is_eligible(goods_of(one)) {
            true => OF_SECURITY,
            false => OF_NOT_ELIGIBLE,
        }
    }
}

#[cfg(test)]
mod tests {
    use super::*;
    use crate::random::Random;
    use crate::set_figures::of_figures;

    #[test]
    fn every_figure_is_listed() {
        let figures = NetFigures::new();
        // Of debt with three bands three types at three steps, sovereign debt at step 4, and
        // three without step, on both sides; with five bands two of these under table 3; what
        // may only be lent.
        let earlier = 2 * (4 * 3 * 3 + 3 + 3) + 22 * 3;
        let later = 2 * (2 * 3 * 3 + 2 * 3 * 5 + 3 + 3) + (3 + 4 + 7) * 3 + 8 * 5;
        assert_eq!(figures.goods.all(), earlier + later);
        assert_eq!(figures.edges.all(), 2 * 4 * 8 * 2 * 2);
        // Haircuts of goods but 0, of goods not eligible, of currencies.
        assert_eq!(figures.intervals.all(), (12 + 2 + 13 + 2) * 60);
    }

    #[test]
    fn what_is_met_tells() {
        let mut figures = NetFigures::new();
        for number in 0..3000 {
            let set = of_figures(&mut Random::new(139, number));
            figures.meet(&set, &Nets::of(&set));
        }
        for cells in figures.families() {
            assert_eq!(cells.unlisted().count(), 0, "{}", cells.title);
            assert!(cells.met() * 100 / cells.all() > 85, "{}", cells.met());
        }
    }
}
