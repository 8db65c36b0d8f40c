//! A deal's report.

use std::fmt;

use crate::numbers::take;
use crate::ITEMS;

/// Numbers that report an item of collateral: its value, its ground, what the
/// haircut, the maturity and the cut took, and what is left out.
pub const OUTCOME_WIDTH: usize = 6;
/// Numbers that report a guarantee or a swap: its portion besides.
pub const COVER_WIDTH: usize = OUTCOME_WIDTH + 1;
/// Numbers of a report.
pub const REPORT_LENGTH: usize = 1 + ITEMS * OUTCOME_WIDTH + ITEMS * COVER_WIDTH + 2;

/// The ground for leaving an item out, 21 to 29.
#[derive(Clone, Copy, Debug, PartialEq, Eq)]
pub struct Ground(pub u64);

impl fmt::Display for Ground {
    fn fmt(&self, out: &mut fmt::Formatter) -> fmt::Result {
        let words = match self.0 {
            21 => "not lawful",
            22 => "related to the counterparty",
            23 => "already in the rating used",
            24 => "not eligible by type and step",
            25 => "mismatch with original term under 360 days",
            26 => "mismatch with residual term of 90 days or less",
            27 => "not direct",
            28 => "other entity that is unrated",
            29 => "provider's weight not below the counterparty's",
            _ => "unknown ground",
        };
        write!(out, "ground {}: {words}", self.0)
    }
}

/// What an item that is valued is worth, and where the rest of its amount went: the
/// value and the losses make up the amount that was sent. The steps are the cut, the
/// haircut and the maturity; a loss is what its step took of what it found, what was
/// rounded down included.
#[derive(Clone, Copy, Debug, Default, PartialEq, Eq)]
pub struct Valuation {
    /// What is recognised, which may be 0.
    pub value: u64,
    /// By the haircuts of the goods and of another currency.
    pub haircut_loss: u64,
    /// By a term that is shorter than the deal's.
    pub maturity_loss: u64,
    /// Of a swap for which restructuring is no credit event: all but the 60 percent
    /// that count, what stands above the deal's amount included. Of all else 0.
    pub cut_loss: u64,
}

impl Valuation {
    /// What the three steps took together.
    pub fn losses(self) -> u64 {
        // A report's numbers are far smaller; any others must not panic either.
        self.haircut_loss
            .saturating_add(self.maturity_loss)
            .saturating_add(self.cut_loss)
    }

    /// The amount that was sent.
    pub fn amount(self) -> u64 {
        self.value.saturating_add(self.losses())
    }
}

/// What became of an item: what it is worth, or on which ground its whole amount is
/// left out.
#[derive(Clone, Copy, Debug, PartialEq, Eq)]
pub enum Outcome {
    Valued(Valuation),
    LeftOut {
        ground: Ground,
        /// The amount that was sent.
        amount: u64,
    },
}

impl Outcome {
    /// Where there is a ground, value and losses are 0; where there is none, nothing
    /// is left out.
    fn from_numbers(numbers: [u64; OUTCOME_WIDTH]) -> Self {
        let [value, ground, haircut_loss, maturity_loss, cut_loss, left_out] = numbers;
        match ground {
            0 => Outcome::Valued(Valuation {
                value,
                haircut_loss,
                maturity_loss,
                cut_loss,
            }),
            ground => Outcome::LeftOut {
                ground: Ground(ground),
                amount: left_out,
            },
        }
    }

    /// The recognised value; 0 where the item is left out.
    pub fn value(self) -> u64 {
        match self {
            Outcome::Valued(valuation) => valuation.value,
            Outcome::LeftOut { .. } => 0,
        }
    }

    /// What haircut, maturity and cut took together; 0 where the item is left out.
    pub fn losses(self) -> u64 {
        match self {
            Outcome::Valued(valuation) => valuation.losses(),
            Outcome::LeftOut { .. } => 0,
        }
    }

    /// The whole amount where the item is left out; 0 where it is valued.
    pub fn left_out(self) -> u64 {
        match self {
            Outcome::Valued(_) => 0,
            Outcome::LeftOut { amount, .. } => amount,
        }
    }

    /// The amount that was sent, valued or not.
    pub fn amount(self) -> u64 {
        match self {
            Outcome::Valued(valuation) => valuation.amount(),
            Outcome::LeftOut { amount, .. } => amount,
        }
    }
}

impl Default for Outcome {
    fn default() -> Self {
        Outcome::Valued(Valuation::default())
    }
}

/// What became of a guarantee or a swap, and the portion of E* that it covers.
#[derive(Clone, Copy, Debug, Default, PartialEq, Eq)]
pub struct Cover {
    pub outcome: Outcome,
    pub portion: u64,
}

/// The report of an accepted deal: items in order of adding, value and losses 0
/// past a count.
#[derive(Clone, Debug, Default, PartialEq, Eq)]
pub struct Report {
    /// E*, the exposure after collateral.
    pub exposure: u64,
    pub collateral: [Outcome; ITEMS],
    /// Of guarantees and swaps.
    pub guarantees: [Cover; ITEMS],
    /// What none of them covers of E*.
    pub rest: u64,
    pub weighted_amount: u64,
}

impl Report {
    /// From E*; sixteen times the numbers of an item of collateral (value, ground,
    /// haircut's, maturity's and cut's loss, left out); sixteen times those of a
    /// guarantee or a swap (the same and the portion); the rest; the weighted amount.
    pub fn from_numbers(numbers: &[u64; REPORT_LENGTH]) -> Self {
        let rest = &mut &numbers[..];
        let [exposure] = take(rest);
        let collateral = std::array::from_fn(|_| Outcome::from_numbers(take(rest)));
        let guarantees = std::array::from_fn(|_| {
            let outcome = Outcome::from_numbers(take(rest));
            let [portion] = take(rest);
            Cover { outcome, portion }
        });
        let [rest, weighted_amount] = take(rest);
        Report {
            exposure,
            collateral,
            guarantees,
            rest,
            weighted_amount,
        }
    }
}
