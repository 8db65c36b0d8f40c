//! Netting sets whose securities and currencies stand on both sides: nets that are lent, that
//! are received, and that cancel.

use std::cmp::Ordering;

use reference::{NettingSet, Position};

use crate::draft::{cash, goods_of, open, shuffle, Draft};
use crate::nets::{Nets, Netted};
use crate::random::Random;
use crate::set::{LENT, POSITIONS, RECEIVED};
use crate::set_goods;
use crate::values::AMOUNT_LIMIT;

pub fn of_nets(random: &mut Random) -> NettingSet {
    let mut draft = Draft::new(random);
    let most = random.pick(&[20, 1000, 1_000_000, AMOUNT_LIMIT / 100]);
    for _ in 0..random.between(1, 4) {
        let goods = set_goods::any(random);
        let currency = draft.currency(random);
        let one = draft.security(random, goods, currency);
        put_entries(random, &mut draft, one, most);
    }
    if random.percent(40) {
        let one = cash(draft.currency(random));
        put_entries(random, &mut draft, one, most);
    }
    for place in 1..draft.currencies.len() {
        if random.percent(50) {
            let currency = draft.currencies[place];
            turn_currency(random, &mut draft, currency);
        }
    }
    open(random, &mut draft.set);
    shuffle(random, &mut draft.set.positions);
    draft.set
}

/// One to four entries: on one side, or on both with a net on either or none.
fn put_entries(random: &mut Random, draft: &mut Draft, one: Position, most: u64) {
    let eligible = set_goods::is_eligible(goods_of(&one));
    let amount = random.between(1, most);
    let smaller = random.below(amount);
    let [lent, received] = match random.below(10) {
        _ if !eligible => [amount, 0],
        0 => [amount, 0],
        1 => [0, amount],
        2..=4 => [amount, smaller],
        5..=7 => [smaller, amount],
        _ => [amount, amount],
    };
    for (side, amount) in [(LENT, lent), (RECEIVED, received)] {
        let part = match random.percent(40) {
            true => random.between(0, amount),
            false => amount,
        };
        for amount in [part, amount - part] {
            if amount > 0 {
                draft.put(one, side, amount);
            }
        }
    }
}

/// Puts cash in that cancels the net of a currency, or turns its side.
fn turn_currency(random: &mut Random, draft: &mut Draft, currency: u64) {
    let nets = Nets::of(&draft.set).nets;
    let net = nets.iter().find(|net| net.of == Netted::Currency(currency));
    let signed = net.map_or(0, |net| net.signed());
    let side = match signed.cmp(&0) {
        Ordering::Less => LENT,
        Ordering::Equal => return,
        Ordering::Greater => RECEIVED,
    };
    let amount = signed.unsigned_abs() as u64;
    let more = match random.percent(60) {
        true => 0,
        false => random.between(1, amount),
    };
    if draft.set.positions.len() < POSITIONS - 1 {
        draft.put(cash(currency), side, amount + more);
    }
}

#[cfg(test)]
mod tests {
    use super::*;

    #[test]
    fn nets_are_lent_received_and_none() {
        let mut signs = [[0; 3]; 2];
        for number in 0..1000 {
            let set = of_nets(&mut Random::new(97, number));
            for net in Nets::of(&set).nets {
                if net.lent > 0 && net.received > 0 {
                    let of = usize::from(matches!(net.of, Netted::Currency(_)));
                    signs[of][(net.signed().signum() + 1) as usize] += 1;
                }
            }
        }
        assert!(signs.iter().flatten().all(|of| *of > 100), "{signs:?}");
    }
}
