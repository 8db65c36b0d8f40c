//! A deal's record. Every field is a plain number, so that a record can hold
//! what reporting refuses.

use crate::numbers::{numbers, take};

/// Places in each list of a record.
pub const ITEMS: usize = 16;
/// Numbers of a record.
pub const RECORD_LENGTH: usize =
    Terms::LENGTH + 1 + ITEMS * Collateral::LENGTH + 1 + ITEMS * HeldGuarantee::LENGTH;

/// What a place of the list of guarantees holds: a guarantee.
pub const GUARANTEE_INSTRUMENT: u64 = 0;
/// A swap for which restructuring is no credit event.
pub const SWAP_WITHOUT_RESTRUCTURING: u64 = 1;
/// A swap for which restructuring is a credit event.
pub const SWAP_WITH_RESTRUCTURING: u64 = 2;

numbers! {
    /// The terms of a deal.
    Terms {
        amount,
        /// Of the counterparty: 1 sovereign, 2 bank, 3 corporate, 4 retail.
        class,
        step,
        /// Of the counterparty's sovereign; 0 for classes 1 and 4.
        sovereign_step,
        currency,
        /// 1 repo-style, 2 other capital market, 3 secured lending.
        kind,
        /// Business days between revaluations.
        interval,
        residual_term,
        /// What is lent; a loan lends cash: 1, 0, 0.
        lent_type,
        lent_step,
        lent_issue_life,
        /// What the header of a book says: 1; 2 with the floor of the sovereign's
        /// weight; 3 with that floor and the tables of 2023.
        edition,
    }
}

numbers! {
    /// An item of collateral.
    Collateral {
        amount,
        /// 1 cash, 2 sovereign debt, 3 other issuers' debt, 4 bank debt, 5
        /// securitisation, 6 re-securitisation, 7 main index equity, 8 other
        /// listed equity, 9 gold.
        goods,
        step,
        /// Of the security itself, never of the pledge.
        issue_life,
        currency,
        /// Of the pledge.
        residual_term,
        /// Of the pledge.
        original_term,
        lawful,
        /// To the counterparty.
        unrelated,
        /// Not already in the rating used.
        unreflected,
        /// Listed senior bank paper; counts for bank debt at step 0 alone.
        listed,
    }
}

numbers! {
    /// A guarantee, as it is sent.
    Guarantee {
        amount,
        /// Of the provider: 1 sovereign, 2 bank or securities firm, 3 other entity.
        class,
        step,
        /// Of the provider's sovereign; 0 for class 1.
        sovereign_step,
        currency,
        residual_term,
        original_term,
        lawful,
        direct,
        /// Not already in the rating used.
        unreflected,
    }
}

numbers! {
    /// A credit default swap, as it is sent: a guarantee's numbers and one
    /// condition more. Where that is not met, 60 percent of the smaller of the
    /// swap's and the deal's amount, rounded down, count for its amount; where it
    /// is met, the whole does. In all else a swap is a guarantee.
    Swap {
        amount,
        /// Of the provider, as all up to `unreflected` are a guarantee's.
        class,
        step,
        sovereign_step,
        currency,
        residual_term,
        original_term,
        lawful,
        direct,
        unreflected,
        /// Restructuring is a credit event.
        restructuring,
    }
}

numbers! {
    /// A guarantee or a swap, as a record holds it.
    HeldGuarantee {
        amount,
        /// Of the provider, as all up to `unreflected` are a guarantee's.
        class,
        step,
        sovereign_step,
        currency,
        residual_term,
        original_term,
        lawful,
        direct,
        unreflected,
        /// [`GUARANTEE_INSTRUMENT`], [`SWAP_WITHOUT_RESTRUCTURING`] or
        /// [`SWAP_WITH_RESTRUCTURING`]; any other is refused with 40.
        instrument,
    }
}

impl From<Guarantee> for HeldGuarantee {
    fn from(item: Guarantee) -> Self {
        held(&item.to_numbers(), GUARANTEE_INSTRUMENT)
    }
}

/// The instrument is one above the entry of the condition. An entry that is
/// neither 0 nor 1 gives 3, which is no instrument, so that a record with it is
/// refused, as adding the swap is.
impl From<Swap> for HeldGuarantee {
    fn from(item: Swap) -> Self {
        let [sent @ .., restructuring] = item.to_numbers();
        let instrument = SWAP_WITHOUT_RESTRUCTURING + restructuring.min(2);
        held(&sent, instrument)
    }
}

fn held(sent: &[u64; Guarantee::LENGTH], instrument: u64) -> HeldGuarantee {
    let mut numbers = [instrument; HeldGuarantee::LENGTH];
    numbers[..sent.len()].copy_from_slice(sent);
    HeldGuarantee::from_numbers(&numbers)
}

/// A deal with its protection. Places at or past a count are not looked at.
#[derive(Clone, Debug, Default, PartialEq, Eq)]
pub struct Record {
    pub terms: Terms,
    pub collateral_count: u64,
    pub collateral: [Collateral; ITEMS],
    pub guarantee_count: u64,
    /// Guarantees and swaps, in one order of adding.
    pub guarantees: [HeldGuarantee; ITEMS],
}

impl Record {
    /// A deal with these items, in order of adding. Of a longer list than
    /// sixteen the first sixteen are held and the count is the whole list's,
    /// which [`report`](crate::report()) refuses with 40.
    pub fn new(terms: Terms, collateral: &[Collateral], guarantees: &[HeldGuarantee]) -> Self {
        let mut record = Record {
            terms,
            collateral_count: collateral.len() as u64,
            guarantee_count: guarantees.len() as u64,
            ..Record::default()
        };
        for (place, item) in record.collateral.iter_mut().zip(collateral) {
            *place = *item;
        }
        for (place, item) in record.guarantees.iter_mut().zip(guarantees) {
            *place = *item;
        }
        record
    }

    /// The terms; the count of collateral and sixteen items; the count of
    /// guarantees and swaps together and sixteen items.
    pub fn to_numbers(&self) -> [u64; RECORD_LENGTH] {
        let mut numbers = [0; RECORD_LENGTH];
        let values = (self.terms.to_numbers().into_iter())
            .chain([self.collateral_count])
            .chain(self.collateral.iter().flat_map(Collateral::to_numbers))
            .chain([self.guarantee_count])
            .chain(self.guarantees.iter().flat_map(HeldGuarantee::to_numbers));
        for (number, value) in numbers.iter_mut().zip(values) {
            *number = value;
        }
        numbers
    }

    /// The record whose [`to_numbers`](Record::to_numbers) these are.
    pub fn from_numbers(numbers: &[u64; RECORD_LENGTH]) -> Self {
        let rest = &mut &numbers[..];
        let terms = Terms::from_numbers(&take(rest));
        let [collateral_count] = take(rest);
        let collateral = std::array::from_fn(|_| Collateral::from_numbers(&take(rest)));
        let [guarantee_count] = take(rest);
        let guarantees = std::array::from_fn(|_| HeldGuarantee::from_numbers(&take(rest)));
        Record {
            terms,
            collateral_count,
            collateral,
            guarantee_count,
            guarantees,
        }
    }
}
