//! What an item counts for, and where the rest of its amount went (01: From items
//! to the weighted amount, 1 and 2; Grounds for leaving an item out; 02: L2).

use crate::share::{Share, Split};

/// A recognised item's value and what each step took on the way to it, the
/// step's rounding included. The four make up the sent amount.
#[derive(Clone, Copy, Debug, Default, PartialEq, Eq)]
pub struct Valuation {
    pub value: u64,
    /// Taken by the haircuts of the goods and of the currency.
    pub haircut_loss: u64,
    /// Taken by the maturity step.
    pub maturity_loss: u64,
    /// Taken by the cut of a swap where restructuring is no credit event, what is
    /// above the deal's amount included; 0 for all else.
    pub cut_loss: u64,
}

impl Valuation {
    /// The steps in their order: the haircuts take from what the cut left, the
    /// maturity from what the haircuts left.
    pub(crate) fn of(cut: Split, haircuts: Share, maturity: Share) -> Self {
        let haircuts = haircuts.split(cut.left);
        let maturity = maturity.split(haircuts.left);
        Valuation {
            value: maturity.left,
            haircut_loss: haircuts.taken,
            maturity_loss: maturity.taken,
            cut_loss: cut.taken,
        }
    }
}

/// What an item counts for: its value with its losses, or the ground for leaving
/// it out.
#[derive(Clone, Copy, Debug, PartialEq, Eq)]
pub enum Outcome {
    Valued(Valuation),
    /// The whole sent amount is left out, before any step takes from it.
    LeftOut {
        ground: u8,
        amount: u64,
    },
}

impl Outcome {
    /// The outcome of an item of the amount.
    pub(crate) fn of(amount: u64, valued: Result<Valuation, u8>) -> Self {
        match valued {
            Ok(valuation) => Outcome::Valued(valuation),
            Err(ground) => Outcome::LeftOut { ground, amount },
        }
    }

    /// The value, 0 where the item is left out.
    pub fn value(&self) -> u64 {
        match self {
            Outcome::Valued(valuation) => valuation.value,
            Outcome::LeftOut { .. } => 0,
        }
    }
}

impl Default for Outcome {
    /// A value and losses of 0, as in the places past a count.
    fn default() -> Self {
        Outcome::Valued(Valuation::default())
    }
}

#[cfg(test)]
mod tests {
    use super::*;

    #[test]
    fn each_step_takes_from_what_the_one_before_it_left() {
        // 1,000: 600, then 0.75 of it is 450, then a third of that is 150.
        let cut = Share::SIXTY_PERCENT.split(1_000);
        let valuation = Valuation::of(cut, Share::left_by(250_000), Share::new(1, 3));
        let expected = Valuation {
            value: 150,
            haircut_loss: 150,
            maturity_loss: 300,
            cut_loss: 400,
        };
        assert_eq!(valuation, expected);
    }

    #[test]
    fn a_left_out_item_has_no_value() {
        assert_eq!(Outcome::of(7, Err(21)).value(), 0);
        let valuation = Valuation {
            value: 5,
            haircut_loss: 2,
            ..Valuation::default()
        };
        assert_eq!(Outcome::of(7, Ok(valuation)).value(), 5);
    }
}
