//! Netting sets that are accepted but for one wrong entry.

use reference::NettingSet;

use crate::random::Random;
use crate::set::*;
use crate::set_entries::{all_wrong, value, Field, OF_POSITION, OF_SET};
use crate::set_goods;
use crate::sets::any_of;
use crate::sovereign::right_steps;
use crate::wrong::{Made, Wrong};

/// Each wrong entry as often, or each field.
pub fn one_wrong(random: &mut Random) -> Made {
    let mut entries = all_wrong();
    if random.percent(50) {
        let place = random.index(OWN + WIDTH);
        entries.retain(|(field, _)| match place.checked_sub(OWN) {
            None => field[..2] == [OF_SET, place as u64],
            Some(place) => field[..2] == [OF_POSITION, place as u64],
        });
    }
    let (field, entry) = random.pick(&entries);
    let (set, place) = set_with(random, field);
    let base = numbers(&set);
    let value = value(base[place], entry);
    (base, vec![Wrong::Number { place, value }])
}

/// An accepted set that has such a field, and where it stands.
fn set_with(random: &mut Random, [whose, field, of]: Field) -> (NettingSet, usize) {
    let count = match random.percent(25) {
        true => 1,
        false => random.between(2, POSITIONS as u64) as usize,
    };
    let mut set = any_of(random, count);
    if whose == OF_SET {
        if of > 0 {
            set.class = of;
            set.step = if of == 4 { 0 } else { set.step };
            set.sovereign_step = set.sovereign_step.min(*right_steps(of).end());
        }
        return (set, field as usize);
    }
    let position = match random.below(4) {
        0 => 0,
        1 => count - 1,
        _ => random.index(count),
    };
    let [side, goods] = match field as usize {
        AMOUNT => [of, 0],
        SIDE | CURRENCY => [random.between(LENT, RECEIVED), 0],
        _ => [random.between(LENT, RECEIVED), of],
    };
    put_such(random, &mut set, position, [side, goods]);
    (set, place(position, field as usize))
}

/// Makes a position one of this side, if it may be, and of this type, or of any; its
/// security is its own.
fn put_such(random: &mut Random, set: &mut NettingSet, position: usize, [side, goods]: [u64; 2]) {
    let such = loop {
        let such = match random.percent(10) {
            true => [CASH, 0, 0],
            false if side == RECEIVED && goods != 6 => set_goods::eligible(random),
            false => set_goods::any(random),
        };
        if goods == 0 || such[0] == goods {
            break such;
        }
    };
    let used = |number: u64| set.positions.iter().any(|one| one.security == number);
    let security = match such[0] {
        CASH => NO_SECURITY,
        _ => (500..999).find(|number| !used(*number)).unwrap_or(999),
    };
    let one = &mut set.positions[position];
    one.side = match set_goods::is_eligible(such) {
        true => side,
        false => LENT,
    };
    one.security = security;
    [one.goods, one.step, one.life] = such;
}
