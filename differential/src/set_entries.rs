//! Entries of a netting set's fields: those at the ends of each range, and those that are
//! wrong, each to be met where it alone decides.

use reference::NettingSet;

use crate::bands::EDGES;
use crate::cells::{cell, Cell, Cells};
use crate::set::*;
use crate::sovereign::right_steps;
use crate::values::{has_step, AMOUNT_LIMIT, DAYS_LIMIT};
use crate::wrong::{set_of, Wrong};

/// Whose field it is.
pub const OF_SET: u64 = 1;
pub const OF_POSITION: u64 = 2;

/// What is added to an entry, so that a narrower width would cut it to what it was.
const ADDED: [u64; 7] = [1 << 8, 1 << 10, 1 << 16, 1 << 17, 1 << 32, 1 << 40, 1 << 63];
const CUT_OFF: [u64; 3] = [1 << 8, 1 << 16, 1 << 32];

/// A field: whose it is, which, and what decides about its entries: the class of the set's
/// counterparty, the type or the side of the position, or nothing.
pub type Field = [u64; 3];

fn entries<const NEAR: usize, const BITS: usize>(near: [u64; NEAR], bits: [u64; BITS]) -> Vec<u64> {
    let entries = near.into_iter().chain(bits);
    entries.chain([u64::MAX]).collect()
}

/// Wrong entries of a step that may be no higher than this.
fn steps_above(last: u64) -> Vec<u64> {
    (last + 1..=7).chain(CUT_OFF).chain([u64::MAX]).collect()
}

/// Wrong entries, or what is added to a right one.
fn wrong_entries([whose, field, of]: Field) -> Vec<u64> {
    const WIDE: [u64; 3] = [1 << 10, 1 << 16, 1 << 32];
    match (whose, field as usize) {
        (OF_SET, TABLE) => entries([0, 1, 4], CUT_OFF),
        (OF_SET, CLASS) => entries([0, 5], CUT_OFF),
        (OF_SET, STEP) => steps_above(if of == 4 { 0 } else { 6 }),
        (OF_SET, SOVEREIGN_STEP) => steps_above(*right_steps(of).end()),
        (OF_SET, INTERVAL) => entries([0, 61], CUT_OFF),
        (OF_SET, _) => entries([0, 1000], WIDE),
        (_, SIDE) => entries([0, 3], CUT_OFF),
        (_, AMOUNT) => entries([AMOUNT_LIMIT + 1], [1 << 40, 1 << 63]),
        (_, GOODS) => entries([0, 10], CUT_OFF),
        (_, SECURITY) if of == CASH => entries([1, 999, 1000], CUT_OFF),
        (_, GOODS_STEP) => steps_above(if has_step(of) { 6 } else { 0 }),
        (_, LIFE) if has_step(of) => entries([0, DAYS_LIMIT + 1], [1 << 17, 1 << 32]),
        (_, LIFE) => entries([1, 360, DAYS_LIMIT, DAYS_LIMIT + 1], CUT_OFF),
        (_, _) => entries([0, 1000], WIDE),
    }
}

/// Right entries at the ends, and others that a rule tells apart.
fn right_entries([whose, field, of]: Field) -> Vec<u64> {
    match (whose, field as usize) {
        (OF_SET, TABLE) => TABLES.to_vec(),
        (OF_SET, CLASS) => (1..=4).collect(),
        (OF_SET, STEP) => (0..=if of == 4 { 0 } else { 6 }).collect(),
        (OF_SET, SOVEREIGN_STEP) => right_steps(of).collect(),
        (OF_SET, INTERVAL) => (1..=60).collect(),
        (OF_SET, _) => vec![1, 999],
        (_, SIDE) => vec![LENT, RECEIVED],
        (_, AMOUNT) => vec![0, 1, AMOUNT_LIMIT - 1, AMOUNT_LIMIT],
        (_, GOODS) => vec![of],
        (_, SECURITY) if of == CASH => vec![NO_SECURITY],
        (_, GOODS_STEP) => (0..=if has_step(of) { 6 } else { 0 }).collect(),
        (_, LIFE) if has_step(of) => [1, 65_536, DAYS_LIMIT].into_iter().chain(EDGES).collect(),
        (_, LIFE) => vec![0],
        (_, _) => vec![1, 999],
    }
}

/// Every field by what decides about it.
fn fields() -> Vec<Field> {
    let of_set = (TABLE..=INTERVAL).flat_map(|field| {
        let by_class = [STEP, SOVEREIGN_STEP].contains(&field);
        let of = if by_class { 1..=4 } else { 0..=0 };
        of.map(move |of| [OF_SET, field as u64, of])
    });
    let of_position = (SIDE..=CURRENCY).flat_map(|field| {
        let of = match field {
            AMOUNT => LENT..=RECEIVED,
            SIDE | CURRENCY => 0..=0,
            _ => 1..=9,
        };
        of.map(move |of| [OF_POSITION, field as u64, of])
    });
    of_set.chain(of_position).collect()
}

fn field_of(set: &NettingSet, position: Option<usize>, field: usize) -> Field {
    let Some(position) = position else {
        let by_class = [STEP, SOVEREIGN_STEP].contains(&field);
        return [OF_SET, field as u64, u64::from(by_class) * set.class];
    };
    let one = &set.positions[position];
    let of = match field {
        AMOUNT => one.side,
        SIDE | CURRENCY => 0,
        _ => one.goods,
    };
    [OF_POSITION, field as u64, of]
}

/// The number that an entry puts in place of this one.
pub fn value(before: u64, entry: u64) -> u64 {
    match ADDED.contains(&entry) {
        true => before + entry,
        false => entry,
    }
}

/// Each field, and each of its wrong entries.
pub fn all_wrong() -> Vec<(Field, u64)> {
    with_entries(wrong_entries).collect()
}

fn with_entries(entries: fn(Field) -> Vec<u64>) -> impl Iterator<Item = (Field, u64)> {
    let fields = fields().into_iter();
    fields.flat_map(move |field| entries(field).into_iter().map(move |entry| (field, entry)))
}

fn cells_of(entries: fn(Field) -> Vec<u64>) -> impl Iterator<Item = Cell> {
    with_entries(entries).map(|([whose, place, of], entry)| cell(&[whose, place, of, entry]))
}

pub struct Entries {
    right: Cells,
    wrong: Cells,
    /// Wrong ones of positions: field, side, which position.
    places: Cells,
}

/// Which position it is.
const ONLY: u64 = 1;
const FIRST: u64 = 2;
const MIDDLE: u64 = 3;
const LAST: u64 = 4;

pub fn place_among(position: usize, count: usize) -> u64 {
    match position {
        0 if count == 1 => ONLY,
        0 => FIRST,
        _ if position + 1 == count => LAST,
        _ => MIDDLE,
    }
}

pub fn places() -> std::ops::RangeInclusive<u64> {
    ONLY..=LAST
}

/// The refusal of a wrong entry.
fn refusal([whose, field, _]: Field) -> u64 {
    match (whose, field as usize) {
        (OF_SET, TABLE | CLASS) | (OF_POSITION, SIDE | GOODS) => 2,
        (OF_SET, STEP | SOVEREIGN_STEP) | (OF_POSITION, GOODS_STEP) => 3,
        (OF_SET, SETTLEMENT) | (OF_POSITION, CURRENCY) => 4,
        (OF_POSITION, AMOUNT) => 1,
        _ => 5,
    }
}

impl Entries {
    pub fn new() -> Self {
        let places = (SIDE..=CURRENCY).flat_map(|field| {
            let sides = [LENT, RECEIVED].into_iter();
            let of = sides.flat_map(|side| places().map(move |place| [side, place]));
            of.map(move |[side, place]| cell(&[field as u64, side, place]))
        });
        Entries {
            right: Cells::new(
                "sets, entries: set or position, field, of, entry",
                cells_of(right_entries),
            ),
            wrong: Cells::new(
                "sets, wrong entries: set or position, field, of, entry or added",
                cells_of(wrong_entries),
            ),
            places: Cells::new("sets, wrong entries: field, side, which position", places),
        }
    }

    pub fn families(&self) -> [&Cells; 3] {
        [&self.right, &self.wrong, &self.places]
    }

    /// The entries of an accepted set.
    pub fn meet_accepted(&mut self, set: &NettingSet) {
        let numbers = numbers(set);
        for (field, entry) in (TABLE..=INTERVAL).zip(&numbers) {
            self.meet_right(field_of(set, None, field), *entry);
        }
        for (position, numbers) in numbers[OWN..].chunks(WIDTH).enumerate() {
            for (field, entry) in (SIDE..=CURRENCY).zip(numbers) {
                self.meet_right(field_of(set, Some(position), field), *entry);
            }
        }
    }

    fn meet_right(&mut self, field: Field, entry: u64) {
        let [whose, place, of] = field;
        if right_entries(field).contains(&entry) {
            self.right.meet(&[whose, place, of, entry]);
        }
    }

    /// A wrong that an accepted set was refused for.
    pub fn meet_wrong(&mut self, base: &[u64], wrong: &Wrong, reply: u64) {
        let (Some((position, field)), Some(value)) = (wrong.field(), wrong.value()) else {
            return;
        };
        let set = set_of(base);
        let at = field_of(&set, position, field);
        if reply != refusal(at) {
            return;
        }
        let before = base[position.map_or(field, |position| place(position, field))];
        let [whose, number, of] = at;
        let mut met = wrong_entries(at).into_iter();
        if let Some(entry) = met.find(|entry| self::value(before, *entry) == value) {
            self.wrong.meet(&[whose, number, of, entry]);
        }
        if let Some(position) = position {
            let place = place_among(position, set.positions.len());
            let side = set.positions[position].side;
            self.places.meet(&[number, side, place]);
        }
    }
}

#[cfg(test)]
mod tests {
    use super::*;
    use crate::random::Random;
    use crate::sets::any_set;
    use crate::sides::Side;

    #[test]
    fn every_entry_is_listed() {
        let entries = Entries::new();
        let of_set = 7 + 6 + (3 * 5 + 11) + (2 * 5 + 2 * 11) + 6 + 6;
        let of_position = 6 + 2 * 4 + (7 + 8 * 6) + 9 * 6 + (5 * 5 + 4 * 11) + (5 * 5 + 4 * 8) + 6;
        assert_eq!(entries.wrong.all(), of_set + of_position);
        assert_eq!(entries.places.all(), 7 * 2 * 4);
        let of_set = 2 + 4 + 22 + 16 + 2 + 60;
        let of_position = 2 + 2 * 4 + (1 + 8 * 2) + 9 + (5 * 7 + 4) + (5 * 11 + 4) + 2;
        assert_eq!(entries.right.all(), of_set + of_position);
    }

    /// Each wrong entry in each place of random sets.
    #[test]
    fn every_wrong_entry_is_refused() {
        let mut entries = Entries::new();
        for number in 0..400 {
            let set = any_set(&mut Random::new(107, number));
            let base = numbers(&set);
            entries.meet_accepted(&set);
            let own = (TABLE..=INTERVAL).map(|field| (None, field));
            let positions = (0..set.positions.len().min(3))
                .flat_map(|one| (SIDE..=CURRENCY).map(move |field| (Some(one), field)));
            for (position, field) in own.chain(positions) {
                let at = field_of(&set, position, field);
                let place = position.map_or(field, |one| place(one, field));
                for entry in wrong_entries(at) {
                    let value = value(base[place], entry);
                    let wrong = Wrong::Number { place, value };
                    let reply = Side::Reference.net_set(&wrong.put(&base)).refusal;
                    assert_eq!(reply, refusal(at), "{base:?} {wrong:?}");
                    entries.meet_wrong(&base, &wrong, reply);
                }
            }
        }
        assert_eq!(entries.wrong.never_met().count(), 0);
        let unlisted = entries.families().map(|cells| cells.unlisted().count());
        assert_eq!(unlisted, [0; 3]);
    }
}
