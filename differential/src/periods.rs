//! Holding periods in business days, and haircuts scaled to them.

/// Of the haircuts of a deal, but for those of its guarantees.
pub fn of_deal(kind: u64, interval: u64) -> u64 {
    let least = match kind {
        1 => 5,
        2 => 10,
        _ => 20,
    };
    interval + least - 1
}

/// Of the currency haircut of guarantees, whatever the deal's kind.
pub fn of_guarantees(interval: u64) -> u64 {
    interval + 9
}

/// The least h with 10 × h × h at or above the square of the haircut, times the
/// days.
pub fn scaled(haircut: u64, days: u64) -> u64 {
    let square = (haircut * haircut * days).div_ceil(10);
    let root = square.isqrt();
    root + u64::from(root * root < square)
}

#[cfg(test)]
mod tests {
    use super::*;

    #[test]
    fn of_daily_and_of_other_deals() {
        assert_eq!([1, 2, 3].map(|kind| of_deal(kind, 1)), [5, 10, 20]);
        assert_eq!([1, 2, 3].map(|kind| of_deal(kind, 250)), [254, 259, 269]);
        assert_eq!([1, 11].map(of_guarantees), [10, 20]);
    }
}
