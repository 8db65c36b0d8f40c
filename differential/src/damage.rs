//! Damage to the bytes of a book, as a careless copy would do it.

use crate::line;
use crate::malformed::NEAR;
use crate::random::Random;

pub fn damage(random: &mut Random, book: &mut Vec<u8>) {
    if book.is_empty() {
        return;
    }
    let at = random.index(book.len());
    match random.below(12) {
        0 | 1 => book[at] ^= 1 << random.below(8),
        2 | 3 => book[at] = random.pick(NEAR),
        4 => drop(book.remove(at)),
        5 | 6 => book.insert(at, random.pick(NEAR)),
        7 => {
            let to = at + random.index((book.len() - at).min(60));
            book.extend_from_within(at..to);
        }
        8 => {
            let to = at + random.index((book.len() - at).min(60));
            drop(book.drain(at..to));
        }
        9 => book.truncate(at),
        _ => move_lines(random, book),
    }
}

/// Swaps two lines, takes one out or writes one twice.
fn move_lines(random: &mut Random, book: &mut Vec<u8>) {
    let mut lines: Vec<&[u8]> = line::lines(book).collect();
    let (one, other) = (random.index(lines.len()), random.index(lines.len()));
    match random.below(4) {
        0 | 1 => lines.swap(one, other),
        2 => drop(lines.remove(one)),
        _ => lines.insert(other, lines[one]),
    }
    *book = lines.concat();
}
