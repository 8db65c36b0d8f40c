//! Netting sets in which each haircut counts: every one of the table at every interval, on
//! amounts of which a millionth is a unit, with an exposure that is open to both sides.

use reference::NettingSet;

use crate::draft::{cash, open, shuffle, side, Draft};
use crate::random::Random;
use crate::set_goods::{self, Goods};
use crate::table_haircuts;

/// Of which a millionth is at least one unit.
const LEAST: u64 = 1_000_000;

pub fn of_figures(random: &mut Random) -> NettingSet {
    let mut draft = Draft::new(random);
    draft.set.interval = random.between(1, 60);
    let most = random.pick(&[2 * LEAST, 1000 * LEAST, 10_000 * LEAST]);
    for _ in 0..random.between(1, 3) {
        let goods = goods(random, draft.set.table);
        let currency = draft.currency(random);
        let one = draft.security(random, goods, currency);
        let side = side(random, &one);
        draft.put(one, side, random.between(LEAST, most));
    }
    if random.percent(30) {
        let one = cash(draft.currency(random));
        let side = side(random, &one);
        draft.put(one, side, random.between(LEAST, most));
    }
    open(random, &mut draft.set);
    shuffle(random, &mut draft.set.positions);
    draft.set
}

/// Each haircut of the table as often, that of goods that are not eligible too.
fn goods(random: &mut Random, table: u64) -> Goods {
    let haircuts = table_haircuts::all(table).into_iter();
    let haircuts = Vec::from_iter(haircuts.filter(|haircut| *haircut > 0));
    match haircuts.get(random.index(haircuts.len() + 2)) {
        Some(haircut) => set_goods::with_haircut(random, table, *haircut),
        None => set_goods::not_eligible(random),
    }
}

#[cfg(test)]
mod tests {
    use super::*;
    use crate::nets::Nets;

    #[test]
    fn most_haircuts_tell() {
        let (mut told, mut all) = (0, 0);
        for number in 0..1000 {
            let nets = Nets::of(&of_figures(&mut Random::new(89, number)));
            all += nets.nets.len();
            told += nets.nets.iter().filter(|net| nets.tells(net)).count();
        }
        assert!(told * 100 / all > 80, "{told} of {all}");
    }
}
