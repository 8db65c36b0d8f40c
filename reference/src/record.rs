//! What a deal holds (01: What a deal holds; 02: L1). All fields are plain
//! numbers, so that a record can also hold what opening and adding would refuse.

/// Largest amount of a deal or an item, in currency units.
pub const AMOUNT_LIMIT: u64 = 1_000_000_000_000;
/// Places in each list of a record.
pub const LIST_LIMIT: usize = 16;
/// Longest issue life and longest term, in days (02: L11). It bounds no
/// arithmetic: terms are capped at five years before any is done on them, and
/// lives are only compared.
pub(crate) const DAYS_LIMIT: u64 = 100_000;

/// The terms of the exposure itself.
#[derive(Clone, Copy, Debug, Default, PartialEq, Eq)]
pub struct Terms {
    pub amount: u64,
    /// Counterparty: 1 sovereign, 2 bank, 3 corporate, 4 retail.
    pub class: u64,
    pub step: u64,
    /// Step of the counterparty's sovereign of incorporation (02: L5).
    pub sovereign_step: u64,
    pub currency: u64,
    /// 1 repo-style, 2 other capital market, 3 secured lending.
    pub kind: u64,
    /// Business days between revaluations.
    pub interval: u64,
    pub residual: u64,
    pub lent_goods: u64,
    pub lent_step: u64,
    pub lent_life: u64,
    /// What the header of the deal's book says: 1 the tables of 2019, 2 the same
    /// with the floor of the sovereign's weight, 3 those of 2023 with that floor
    /// (02: L5, L9).
    pub edition: u64,
}

/// An item of collateral.
#[derive(Clone, Copy, Debug, Default, PartialEq, Eq)]
pub struct Collateral {
    pub amount: u64,
    pub goods: u64,
    pub step: u64,
    /// The security's own residual life, never the term of the pledge.
    pub life: u64,
    pub currency: u64,
    /// Residual term of the pledge.
    pub residual: u64,
    /// Original term of the pledge.
    pub original: u64,
    pub lawful: u64,
    pub unrelated: u64,
    /// Not already in the rating used.
    pub unreflected: u64,
    /// Listed senior bank paper; counts only for bank debt at step 0.
    pub listed: u64,
}

/// A guarantee.
#[derive(Clone, Copy, Debug, Default, PartialEq, Eq)]
pub struct Guarantee {
    pub amount: u64,
    /// Provider: 1 sovereign, 2 bank or securities firm, 3 other entity.
    pub class: u64,
    pub step: u64,
    /// Step of the provider's sovereign of incorporation (02: L5).
    pub sovereign_step: u64,
    pub currency: u64,
    pub residual: u64,
    pub original: u64,
    pub lawful: u64,
    pub direct: u64,
    /// Not already in the rating used.
    pub unreflected: u64,
}

/// A credit default swap (02: L1): a guarantee in all but its letter where
/// restructuring is a credit event.
#[derive(Clone, Copy, Debug, Default, PartialEq, Eq)]
pub struct Swap {
    /// What a swap sends as a guarantee does.
    pub guarantee: Guarantee,
    /// Restructuring is a credit event (CRE22.86, CRE22.87).
    pub restructuring: u64,
}

/// An entry of the list that guarantees and swaps share. A guarantee has no
/// restructuring condition, so no place of a record can hold one for it.
#[derive(Clone, Copy, Debug, PartialEq, Eq)]
pub enum Cover {
    Guarantee(Guarantee),
    Swap(Swap),
}

impl Cover {
    /// What both send alike.
    pub fn guarantee(&self) -> &Guarantee {
        match self {
            Cover::Guarantee(item) => item,
            Cover::Swap(item) => &item.guarantee,
        }
    }
}

impl Default for Cover {
    /// A place of zeros, as in the lists of a new deal.
    fn default() -> Self {
        Cover::Guarantee(Guarantee::default())
    }
}

impl From<Guarantee> for Cover {
    fn from(item: Guarantee) -> Self {
        Cover::Guarantee(item)
    }
}

impl From<Swap> for Cover {
    fn from(item: Swap) -> Self {
        Cover::Swap(item)
    }
}

/// A deal with its protection. Only the places below a list's count belong to
/// the deal; a count may be any number and is tested by reporting and adding.
#[derive(Clone, Debug, PartialEq, Eq)]
pub struct Record {
    pub terms: Terms,
    pub collateral_count: u64,
    pub collateral: [Collateral; LIST_LIMIT],
    /// Counts guarantees and swaps together.
    pub guarantee_count: u64,
    /// Guarantees and swaps in one order of adding.
    pub guarantees: [Cover; LIST_LIMIT],
}

impl Record {
    /// A deal without protection; nothing is tested.
    pub(crate) fn new(terms: Terms) -> Self {
        Record {
            terms,
            collateral_count: 0,
            collateral: [Collateral::default(); LIST_LIMIT],
            guarantee_count: 0,
            guarantees: [Cover::default(); LIST_LIMIT],
        }
    }

    /// The counted collateral; all sixteen places where the count is larger.
    pub(crate) fn counted_collateral(&self) -> &[Collateral] {
        counted(&self.collateral, self.collateral_count)
    }

    /// The counted guarantees and swaps; all sixteen places where the count is
    /// larger.
    pub(crate) fn counted_guarantees(&self) -> &[Cover] {
        counted(&self.guarantees, self.guarantee_count)
    }
}

fn counted<T>(list: &[T; LIST_LIMIT], count: u64) -> &[T] {
    &list[..place(count)]
}

/// A list count as a place in the list, at most the place behind its end.
pub(crate) fn place(count: u64) -> usize {
    count.min(LIST_LIMIT as u64) as usize
}

impl From<[u64; 12]> for Terms {
    /// The fields of a D line of edition 2 or 3 in its order, then the edition.
    fn from(fields: [u64; 12]) -> Self {
        let [amount, class, step, sovereign_step, currency, kind, interval, residual, lent_goods, lent_step, lent_life, edition] =
            fields;
        Terms {
            amount,
            class,
            step,
            sovereign_step,
            currency,
            kind,
            interval,
            residual,
            lent_goods,
            lent_step,
            lent_life,
            edition,
        }
    }
}

impl From<[u64; 11]> for Collateral {
    /// The fields in the order of a C line.
    fn from(fields: [u64; 11]) -> Self {
        let [amount, goods, step, life, currency, residual, original, lawful, unrelated, unreflected, listed] =
            fields;
        Collateral {
            amount,
            goods,
            step,
            life,
            currency,
            residual,
            original,
            lawful,
            unrelated,
            unreflected,
            listed,
        }
    }
}

impl From<[u64; 10]> for Guarantee {
    /// The fields of a G line of edition 2 or 3 in its order.
    fn from(fields: [u64; 10]) -> Self {
        let [amount, class, step, sovereign_step, currency, residual, original, lawful, direct, unreflected] =
            fields;
        Guarantee {
            amount,
            class,
            step,
            sovereign_step,
            currency,
            residual,
            original,
            lawful,
            direct,
            unreflected,
        }
    }
}

impl From<[u64; 11]> for Swap {
    /// The fields of an S line of edition 2 or 3 in its order: those of a
    /// guarantee, then the restructuring condition.
    fn from(fields: [u64; 11]) -> Self {
        let [guarantee @ .., restructuring] = fields;
        Swap {
            guarantee: guarantee.into(),
            restructuring,
        }
    }
}
