//! A book by its deals, and the lines behind each D in another order.

use crate::entry_orders::places;
use crate::line::{lines, opens_deal};
use crate::random::Random;

/// Beside the orders of one list: the two lists merged otherwise, each in its own order.
pub const MERGED: u64 = 5;

/// A book by its lines: those before the first deal, then each deal's.
#[derive(Clone)]
pub struct Laid<'a> {
    pub before: Vec<&'a [u8]>,
    pub deals: Vec<Vec<&'a [u8]>>,
}

impl<'a> Laid<'a> {
    pub fn of(book: &'a [u8]) -> Self {
        let mut laid = Laid {
            before: Vec::new(),
            deals: Vec::new(),
        };
        for (number, line) in lines(book).enumerate() {
            match laid.deals.last_mut() {
                _ if number > 0 && opens_deal(line) => laid.deals.push(vec![line]),
                Some(deal) => deal.push(line),
                None => laid.before.push(line),
            }
        }
        laid
    }

    pub fn text(&self) -> Vec<u8> {
        let deals = self.deals.iter().map(|deal| deal.concat());
        let before = [self.before.concat()].into_iter();
        Vec::from_iter(before.chain(deals)).concat()
    }

    /// The number of each deal's first line, from 1.
    pub fn firsts(&self) -> Vec<usize> {
        let mut next = self.before.len() + 1;
        let lengths = self.deals.iter().map(Vec::len);
        let firsts = lengths.map(|length| {
            next += length;
            next - length
        });
        firsts.collect()
    }
}

/// The deal's further lines in another order. A last line without a line feed stays.
pub fn put_order(random: &mut Random, how: u64, deal: &mut [&[u8]]) {
    let whole = deal.iter().take_while(|line| line.ends_with(b"\n")).count();
    let lines = match deal.get_mut(1..whole) {
        Some(lines) if lines.len() > 1 => lines,
        _ => return,
    };
    let places = match how {
        MERGED => merged(random, lines),
        _ => places(random, how, lines.len()),
    };
    let other = Vec::from_iter(places.iter().map(|place| lines[*place]));
    lines.copy_from_slice(&other);
}

/// Lines of collateral and others, each as they were among themselves.
fn merged(random: &mut Random, lines: &[&[u8]]) -> Vec<usize> {
    let places = (0..lines.len()).rev();
    let (mut one, mut other) = places.partition::<Vec<_>, _>(|of| is_collateral(lines[*of]));
    let mut places = Vec::new();
    while one.len() + other.len() > 0 {
        let next = match random.index(one.len() + other.len()) < one.len() {
            true => one.pop(),
            false => other.pop(),
        };
        places.extend(next);
    }
    places
}

pub fn is_collateral(line: &[u8]) -> bool {
    line.first() == Some(&b'C')
}

#[cfg(test)]
mod tests {
    use super::*;

    #[test]
    fn lines_and_deals() {
        let book = b"CRM\t1\nX\nD\t1\nC\nG\nD\t2\nC";
        let laid = Laid::of(book);
        assert_eq!(laid.before, [b"CRM\t1\n" as &[u8], b"X\n"]);
        assert_eq!(laid.deals[0], [b"D\t1\n" as &[u8], b"C\n", b"G\n"]);
        assert_eq!(laid.firsts(), [3, 6]);
        assert_eq!(laid.text(), book);
        // A first line is no deal's, and there may be none.
        assert!(Laid::of(b"D\t1\nC\n").deals.is_empty());
        assert!(Laid::of(b"").text().is_empty());
    }

    #[test]
    fn orders_keep_the_lines_and_leave_what_must_stay() {
        for number in 0..2000 {
            let random = &mut Random::new(239, number);
            let all: [&[u8]; 7] = [b"D\t1\n", b"C1\n", b"G1\n", b"C2\n", b"G2\n", b"\n", b"S"];
            let mut deal = all;
            let how = random.between(1, MERGED);
            put_order(random, how, &mut deal);
            assert_eq!([deal[0], deal[6]], [all[0], all[6]]);
            if how == MERGED {
                let place = |of: usize| deal.iter().position(|line| *line == all[of]);
                assert!(place(1) < place(3) && place(2) < place(4) && place(4) < place(5));
            }
            deal.sort();
            let mut sorted = all;
            sorted.sort();
            assert_eq!(deal, sorted);
        }
    }
}
