//! One thing that is wrong with a netting set.

use reference::NettingSet;

use crate::set::{from_numbers, OWN, WIDTH};

#[derive(Clone, Debug, PartialEq, Eq)]
pub enum Wrong {
    /// Another number in this place.
    Number { place: usize, value: u64 },
    /// So many positions in all, the last one again and again.
    Positions(usize),
    /// So many numbers in all, 1 where there were none.
    Length(usize),
}

/// An accepted set, and what is wrong with it then.
pub type Made = (Vec<u64>, Vec<Wrong>);

impl Wrong {
    /// The numbers with this wrong.
    pub fn put(&self, numbers: &[u64]) -> Vec<u64> {
        let mut numbers = numbers.to_vec();
        match *self {
            Wrong::Number { place, value } => numbers[place] = value,
            Wrong::Length(length) => numbers.resize(length, 1),
            Wrong::Positions(count) => {
                let last = numbers[numbers.len() - WIDTH..].to_vec();
                while numbers.len() < OWN + count * WIDTH {
                    numbers.extend(&last);
                }
            }
        }
        numbers
    }

    /// The number that is another one, of the set's own or of a position: which position, and
    /// which of its fields.
    pub fn field(&self) -> Option<(Option<usize>, usize)> {
        match *self {
            Wrong::Number { place, .. } if place < OWN => Some((None, place)),
            Wrong::Number { place, .. } => {
                Some((Some((place - OWN) / WIDTH), (place - OWN) % WIDTH))
            }
            _ => None,
        }
    }

    pub fn value(&self) -> Option<u64> {
        match *self {
            Wrong::Number { value, .. } => Some(value),
            _ => None,
        }
    }
}

/// All of these together. What is over stands behind the positions that come with another
/// wrong.
pub fn put_all(wrongs: &[Wrong], base: &[u64]) -> Vec<u64> {
    let (lengths, others): (Vec<&Wrong>, Vec<&Wrong>) =
        (wrongs.iter()).partition(|wrong| matches!(wrong, Wrong::Length(_)));
    let mut numbers = base.to_vec();
    for wrong in others {
        numbers = wrong.put(&numbers);
    }
    for wrong in lengths {
        numbers = match wrong {
            Wrong::Length(length) if *length > base.len() => {
                Wrong::Length(numbers.len() + length - base.len()).put(&numbers)
            }
            _ => wrong.put(&numbers),
        };
    }
    numbers
}

/// What an accepted set is sent as.
pub fn set_of(base: &[u64]) -> NettingSet {
    from_numbers(base).expect("numbers of a set")
}

#[cfg(test)]
mod tests {
    use super::*;
    use crate::set::place;

    #[test]
    fn what_is_put() {
        let base = Vec::from_iter(0..20);
        let number = Wrong::Number {
            place: place(1, 3),
            value: 99,
        };
        assert_eq!(number.field(), Some((Some(1), 3)));
        assert_eq!(number.put(&base)[16], 99);
        assert_eq!(number.put(&base).len(), 20);
        let own = Wrong::Number { place: 5, value: 9 };
        assert_eq!((own.field(), own.value()), (Some((None, 5)), Some(9)));
        let positions = Wrong::Positions(4).put(&base);
        assert_eq!(positions.len(), 34);
        assert_eq!(positions[27..], base[13..]);
        assert_eq!(Wrong::Length(7).put(&base), base[..7]);
        assert_eq!(Wrong::Length(21).put(&base)[20], 1);
    }

    #[test]
    fn what_is_put_together() {
        let base = Vec::from_iter(0..20);
        let wrongs = [Wrong::Length(21), Wrong::Positions(3)];
        assert_eq!(put_all(&wrongs, &base).len(), 28);
        let wrongs = [Wrong::Length(21), Wrong::Number { place: 0, value: 9 }];
        let numbers = put_all(&wrongs, &base);
        assert_eq!((numbers[0], numbers.len()), (9, 21));
    }
}
