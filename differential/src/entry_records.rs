//! Records of accepted deals with their items in another order, which changes portions among
//! equal weights alone.

use hadlephoga::{Collateral, HeldGuarantee, Record};

use crate::asked::{Asked, Reported};
use crate::cells::{cell, Cells};
use crate::compare::Difference;
use crate::entry_laws::{portion, provider_weight, wrong_order};
use crate::entry_orders::{places, size, ORDERS, SIZES};
use crate::heading::EDITIONS;
use crate::held::INSTRUMENTS;
use crate::random::Random;
use crate::tally::Tally;

/// Which lists are in another order.
const COLLATERAL: u64 = 1;
const GUARANTEES: u64 = 2;
const BOTH: u64 = 3;

/// By edition, lists, how the order is changed, and the items of the longer of these lists.
pub fn order_cells(title: &'static str) -> Cells {
    let lists = [COLLATERAL, GUARANTEES, BOTH].into_iter();
    let of = lists.flat_map(|lists| EDITIONS.map(|edition| [edition, lists]));
    let of = of.flat_map(|[edition, lists]| ORDERS.map(|how| [edition, lists, how]));
    let cells =
        of.flat_map(|[edition, lists, how]| SIZES.map(|size| cell(&[edition, lists, how, size])));
    Cells::new(title, cells)
}

/// By edition, and by the instruments of the item whose portion is larger in the other order and
/// of one of the same weight whose portion is smaller.
pub fn portion_cells(title: &'static str) -> Cells {
    let pairs = INSTRUMENTS.into_iter();
    let pairs = pairs.flat_map(|one| INSTRUMENTS.map(|other| [one, other]));
    let cells = pairs.flat_map(|[one, other]| EDITIONS.map(|edition| cell(&[edition, one, other])));
    Cells::new(title, cells)
}

struct Order {
    lists: u64,
    how: u64,
    /// What was at each place of either list.
    places: [Vec<usize>; 2],
}

impl Order {
    /// Of lists that have two items or more, if there is one.
    fn of(random: &mut Random, record: &Record) -> Option<Self> {
        let counts = [record.collateral_count, record.guarantee_count].map(|of| of as usize);
        let lists = match counts.map(|count| count > 1) {
            [true, true] => random.pick(&[COLLATERAL, GUARANTEES, BOTH]),
            [true, false] => COLLATERAL,
            [false, true] => GUARANTEES,
            [false, false] => return None,
        };
        let how = random.pick(&ORDERS);
        let mut of = |list, count| match lists == list || lists == BOTH {
            true => places(random, how, count),
            false => Vec::from_iter(0..count),
        };
        let places = [of(COLLATERAL, counts[0]), of(GUARANTEES, counts[1])];
        Some(Order { lists, how, places })
    }

    /// What stands past the counts stays there.
    fn put(&self, record: &Record) -> Record {
        let mut other = record.clone();
        for (to, from) in self.places[0].iter().enumerate() {
            other.collateral[to] = record.collateral[*from];
        }
        for (to, from) in self.places[1].iter().enumerate() {
            other.guarantees[to] = record.guarantees[*from];
        }
        other
    }

    /// Counts an order that is another, in each of its lists.
    fn meet(&self, cells: &mut Cells, record: &Record, other: &Record) {
        let (collateral, guarantees) = (
            record.collateral != other.collateral,
            record.guarantees != other.guarantees,
        );
        let [first, second] = self.places.each_ref().map(Vec::len);
        let (changed, count) = match self.lists {
            COLLATERAL => (collateral, first),
            GUARANTEES => (guarantees, second),
            _ => (collateral && guarantees, first.max(second)),
        };
        if changed {
            let edition = record.terms.edition;
            cells.meet(&[edition, self.lists, self.how, size(count)]);
        }
    }
}

/// The accepted deal, with its report, in another order.
pub fn orders(
    random: &mut Random,
    asked: Asked,
    record: &Record,
    before: &Reported,
    tally: &mut Tally,
) -> Result<(), Difference> {
    let Some(order) = Order::of(random, record) else {
        return Ok(());
    };
    let other = order.put(record);
    let after = asked.report(random, &other.to_numbers(), tally)?;
    if let Some(wrong) = wrong_order(record, &order.places, [before, &after]) {
        let about = format!("another order of a deal: {wrong}");
        return Err(asked.broken(&about, shown(record, &other), before, after));
    }
    order.meet(&mut tally.entries.orders, record, &other);
    let cells = &mut tally.entries.portions;
    meet_portions(cells, record, &order.places[1], [before, &after]);
    Ok(())
}

/// Counts pairs of one weight of which one has more of the exposure now and the other less.
fn meet_portions(
    cells: &mut Cells,
    record: &Record,
    places: &[usize],
    [before, after]: [&Reported; 2],
) {
    let edition = record.terms.edition;
    let moved = places.iter().enumerate().map(|(to, from)| {
        let portions = [portion(before, *from), portion(after, to)];
        (&record.guarantees[*from], portions)
    });
    let moved = Vec::from_iter(moved.filter(|(_, [before, after])| before != after));
    let (more, fewer) = moved
        .into_iter()
        .partition::<Vec<_>, _>(|(_, [before, after])| after > before);
    for (one, _) in &more {
        for (other, _) in &fewer {
            let [weight, same] = [one, other].map(|item| provider_weight(edition, item));
            if weight == same {
                cells.meet(&[edition, one.instrument, other.instrument]);
            }
        }
    }
}

/// A record before and after.
pub fn shown(before: &Record, after: &Record) -> String {
    let [before, after] = [before, after].map(|record| {
        let collateral = record.collateral.iter().map(Collateral::to_numbers);
        let collateral = Vec::from_iter(collateral.take(record.collateral_count as usize));
        let guarantees = record.guarantees.iter().map(HeldGuarantee::to_numbers);
        let guarantees = Vec::from_iter(guarantees.take(record.guarantee_count as usize));
        let terms = record.terms.to_numbers();
        format!("terms {terms:?}\n  collateral {collateral:?}\n  guarantees {guarantees:?}")
    });
    format!("before: {before}\nafter: {after}")
}

#[cfg(test)]
mod tests {
    use super::*;
    use crate::deal::{deal_with, record};

    #[test]
    fn every_case_is_listed() {
        assert_eq!(order_cells("").all(), 3 * 3 * 4 * 3);
        assert_eq!(portion_cells("").all(), 3 * 3 * 3);
    }

    #[test]
    fn every_order_is_met() {
        let asked = Asked::Both;
        let tally = &mut Tally::new();
        for number in 0..4000 {
            let random = &mut Random::new(191, number);
            let counts = [(); 2].map(|()| random.pick(&[0, 2, 2, 5, 16]));
            let edition = random.between(1, 3);
            let record = record(&deal_with(random, edition, counts[0], counts[1]));
            let Ok(before) = asked.report(random, &record.to_numbers(), tally) else {
                panic!("a difference");
            };
            if let Err(difference) = orders(random, asked, &record, &before, tally) {
                panic!("{}", difference.about);
            }
        }
        let orders = &tally.entries.orders;
        assert_eq!((orders.met(), orders.unlisted().count()), (108, 0));
        let portions = &tally.entries.portions;
        assert_eq!((portions.met(), portions.unlisted().count()), (27, 0));
    }

    /// A report of 1 more, as if the library had given it first.
    #[test]
    fn a_figure_that_moves_is_told() {
        let random = &mut Random::new(193, 1);
        let record = record(&deal_with(random, 2, 3, 3));
        let tally = &mut Tally::new();
        let Ok(mut before) = Asked::Both.report(random, &record.to_numbers(), tally) else {
            panic!("a difference");
        };
        assert!(orders(random, Asked::Both, &record, &before, tally).is_ok());
        before.1[0] += 1;
        let told = orders(random, Asked::Both, &record, &before, tally);
        let about = "another order of a deal: E* moves";
        assert!(told.is_err_and(|difference| difference.about == about));
    }

    #[test]
    fn an_order_of_equal_items_is_none() {
        let mut record = record(&deal_with(&mut Random::new(197, 1), 1, 2, 0));
        record.collateral[1] = record.collateral[0];
        let random = &mut Random::new(197, 2);
        let order = Order::of(random, &record).expect("two items");
        let mut met = order_cells("");
        order.meet(&mut met, &record, &order.put(&record));
        assert_eq!(met.met(), 0);
    }
}
