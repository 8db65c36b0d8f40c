//! Shares of an amount (01: From items to the weighted amount, 1 to 3; 02: L1,
//! L2).

/// The whole in millionths, the unit of the haircuts.
pub const WHOLE: u64 = 1_000_000;

/// `part` of `whole`: at most the whole, which is not 0.
#[derive(Clone, Copy, Debug, PartialEq, Eq)]
pub struct Share {
    part: u64,
    whole: u64,
}

impl Share {
    pub const ALL: Share = Share { part: 1, whole: 1 };
    pub const SIXTY_PERCENT: Share = Share {
        part: 60,
        whole: 100,
    };

    /// A part larger than the whole counts as the whole, a whole of 0 as 1.
    pub fn new(part: u64, whole: u64) -> Self {
        let whole = whole.max(1);
        Share {
            part: part.min(whole),
            whole,
        }
    }

    /// What haircuts leave; nothing where they reach the whole, so that a
    /// haircut above it never turns collateral into added exposure.
    pub fn left_by(haircuts: u64) -> Self {
        Share::new(WHOLE.saturating_sub(haircuts), WHOLE)
    }

    /// Leaves the share of `amount`, rounded down, and takes what the share lacks
    /// of the whole, rounded up.
    pub fn split(self, amount: u64) -> Split {
        let (amount, whole) = (u128::from(amount), u128::from(self.whole));
        let left = amount * u128::from(self.part) / whole;
        let taken = (amount * u128::from(self.whole - self.part)).div_ceil(whole);
        Split {
            left: narrowed(left),
            taken: narrowed(taken),
        }
    }
}

/// What a step leaves of an amount and what it takes, each worked out by itself;
/// together they are the amount.
#[derive(Clone, Copy, Debug, PartialEq, Eq)]
pub struct Split {
    pub left: u64,
    pub taken: u64,
}

/// `amount` raised by a haircut, rounded up.
pub fn raised(amount: u64, haircut: u64) -> u64 {
    let factor = u128::from(WHOLE) + u128::from(haircut);
    let product = u128::from(amount).saturating_mul(factor);
    narrowed(product.div_ceil(u128::from(WHOLE)))
}

/// Reached by no accepted deal: the largest number rather than a cut one.
fn narrowed(number: u128) -> u64 {
    u64::try_from(number).unwrap_or(u64::MAX)
}

#[cfg(test)]
mod tests {
    use super::*;

    fn parts(share: Share, amount: u64) -> [u64; 2] {
        let Split { left, taken } = share.split(amount);
        [left, taken]
    }

    #[test]
    fn what_is_left_and_what_is_taken_make_up_the_amount() {
        let large = [999_999, 1_000_000_000_000, u64::MAX - 1, u64::MAX];
        for (part, whole) in (1..=40).flat_map(|whole| (0..=whole).map(move |part| (part, whole))) {
            let share = Share::new(part, whole);
            for amount in (0..=100).chain(large) {
                let [left, taken] = parts(share, amount);
                assert_eq!(left.checked_add(taken), Some(amount), "{share:?} {amount}");
            }
        }
    }

    #[test]
    fn haircuts_that_reach_the_whole_leave_nothing() {
        assert_eq!(parts(Share::left_by(999_999), 1_000_000), [1, 999_999]);
        assert_eq!(parts(Share::left_by(1_000_000), 1_000_000), [0, 1_000_000]);
        assert_eq!(parts(Share::left_by(u64::MAX), u64::MAX), [0, u64::MAX]);
        assert_eq!(parts(Share::left_by(0), u64::MAX), [u64::MAX, 0]);
    }

    #[test]
    fn what_is_left_rounds_down_and_all_else_up() {
        assert_eq!(parts(Share::new(2, 3), 2), [1, 1]);
        assert_eq!(parts(Share::new(3, 3), 7), [7, 0]);
        let sixty_percent = [0, 1, 2, 3, 4, 5].map(|n| parts(Share::SIXTY_PERCENT, n));
        assert_eq!(
            sixty_percent,
            [[0, 0], [0, 1], [1, 1], [1, 2], [2, 2], [3, 2]]
        );
        assert_eq!(raised(100, 250_000), 125);
        assert_eq!(raised(1, 1), 2);
        assert_eq!(raised(1, 0), 1);
        assert_eq!(raised(u64::MAX, u64::MAX), u64::MAX);
    }

    #[test]
    fn malformed_shares_are_harmless() {
        assert_eq!(parts(Share::new(5, 0), 9), [9, 0]);
        assert_eq!(parts(Share::new(5, 4), 9), [9, 0]);
    }
}
