//! Lists to be lent to a call, each between two margins.

/// A list of numbers or of bytes; each of them is a mark that an answer hardly gives.
#[derive(Clone, Debug, PartialEq, Eq)]
pub struct Lent<Part> {
    pub numbers: Vec<Part>,
}

pub const MARGIN: usize = 8;

pub trait Mark: Copy {
    fn mark(place: usize) -> Self;
}

impl Mark for u64 {
    fn mark(place: usize) -> Self {
        !(place as u64 * 0x0101_0101)
    }
}

/// Odd, and with its highest bit: neither a space, a return, a line feed nor a tab.
impl Mark for u8 {
    fn mark(place: usize) -> Self {
        (place as u8).wrapping_mul(26) | 0x81
    }
}

impl<Part: Mark> Lent<Part> {
    pub fn new(length: usize) -> Self {
        let numbers = (0..length + 2 * MARGIN).map(Part::mark);
        Lent {
            numbers: numbers.collect(),
        }
    }

    pub fn list(&mut self) -> &mut [Part] {
        let end = self.numbers.len() - MARGIN;
        &mut self.numbers[MARGIN..end]
    }
}

#[cfg(test)]
mod tests {
    use super::*;

    #[test]
    fn margins() {
        let mut lent = Lent::<u8>::new(3);
        assert_eq!(lent.numbers.len(), 3 + 2 * MARGIN);
        lent.list().fill(0);
        let kept = Lent::new(3);
        assert_eq!(lent.numbers[..MARGIN], kept.numbers[..MARGIN]);
        assert_eq!(lent.numbers[MARGIN..][..3], [0; 3]);
        assert_eq!(lent.numbers[MARGIN + 3..], kept.numbers[MARGIN + 3..]);
    }

    #[test]
    fn no_mark_is_what_a_repair_looks_for() {
        assert!((0..1000).all(|place| !b" \t\r\n\0".contains(&u8::mark(place))));
        assert!((1..1000).all(|place| u8::mark(place) != u8::mark(place - 1)));
        assert!((0..1000).all(|place| u64::mark(place) > 65_536));
    }
}
