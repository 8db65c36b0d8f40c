//! Netting sets: repo-style transactions under a master netting agreement. Every
//! field is a plain number, so that a set can hold what is refused.

use crate::numbers::{numbers, take};
use crate::{net_set_numbers, NettingReply, Refusal};

/// The most positions of a set.
pub const POSITIONS: usize = 32;

/// The side of a position that was lent.
pub const LENT: u64 = 1;
/// The side of a position that was received.
pub const RECEIVED: u64 = 2;

numbers! {
    /// The terms of a netting set: all but its positions.
    SetTerms {
        /// Of haircuts and weights: 2 those of 2019, 3 those of 2023, both with the
        /// floor of the sovereign's weight.
        table,
        /// Of the counterparty: 1 sovereign, 2 bank, 3 corporate, 4 retail.
        class,
        step,
        /// Of the counterparty's sovereign; 0 for classes 1 and 4.
        sovereign_step,
        /// The one currency whose net has no haircut.
        settlement_currency,
        /// Business days between revaluations, 1 to 60.
        interval,
    }
}

numbers! {
    /// A position of a netting set: cash or a security.
    Position {
        /// [`LENT`] or [`RECEIVED`].
        side,
        amount,
        /// The security's number, 1 to 999, under which its positions are netted; 0
        /// for cash and for nothing else.
        security,
        /// The types of [`Collateral`](crate::Collateral).
        goods,
        step,
        /// Of the security itself.
        issue_life,
        currency,
    }
}

/// A netting set.
#[derive(Clone, Debug, Default, PartialEq, Eq)]
pub struct NettingSet {
    pub terms: SetTerms,
    /// In any order; more than [`POSITIONS`] are refused with 6.
    pub positions: Vec<Position>,
}

impl NettingSet {
    /// The terms, and one position behind the other.
    pub fn to_numbers(&self) -> Vec<u64> {
        let positions = self.positions.iter().flat_map(Position::to_numbers);
        (self.terms.to_numbers().into_iter())
            .chain(positions)
            .collect()
    }

    /// The set whose [`to_numbers`](NettingSet::to_numbers) these are, or none where
    /// they are not six and seven for each position, which
    /// [`net_set_numbers`] refuses with 11.
    pub fn from_numbers(numbers: &[u64]) -> Option<Self> {
        let (terms, mut rest) = numbers.split_first_chunk()?;
        if rest.len() % Position::LENGTH != 0 {
            return None;
        }
        let count = rest.len() / Position::LENGTH;
        let positions = (0..count).map(|_| Position::from_numbers(&take(&mut rest)));
        Some(NettingSet {
            terms: SetTerms::from_numbers(terms),
            positions: positions.collect(),
        })
    }
}

/// What a netting set comes to.
#[derive(Clone, Copy, Debug, Default, PartialEq, Eq)]
pub struct Netted {
    /// E*.
    pub exposure: u64,
    /// The risk-weighted amount.
    pub rwa: u64,
}

/// Nets a set: E* is lent less received, plus each security's absolute net times its
/// haircut, plus the absolute net of each currency but the settlement currency times
/// the currency haircut, rounded up once, not below 0 and not above all that was lent.
/// Refused with 2 to 5, 6, 1 to 5 of a position, 15, 16 or 17.
pub fn net_set(set: &NettingSet) -> Result<Netted, Refusal> {
    match net_set_numbers(&set.to_numbers()) {
        NettingReply {
            refusal: 0,
            exposure,
            rwa,
        } => Ok(Netted { exposure, rwa }),
        NettingReply { refusal, .. } => Err(Refusal(refusal)),
    }
}
