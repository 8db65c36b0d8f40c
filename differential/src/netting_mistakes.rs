//! What could be mistaken of a netting set: each mistake is to be met, under each table, where
//! it would change E* or the weighted amount of an accepted set.

use reference::NettingSet;

use crate::cells::{cell, Cells};
use crate::mistaken_costs;
use crate::mistaken_nets;
use crate::mistaken_weights;
use crate::nets::Nets;
use crate::set::TABLES;

/// What is done in place of what is due.
#[derive(Clone, Copy, PartialEq, Eq, Debug)]
pub enum Mistake {
    /// Positions that are not counted.
    LastLeftOut = 1,
    FirstLeftOut,
    LeftOutPast16,
    /// The holding period: the interval, or the interval and so many days.
    IntervalAlone,
    Plus3,
    Plus5,
    Plus9,
    Plus19,
    /// Haircuts: of the other table; of lent goods that are not eligible none, or that of the
    /// other table; of unrated bank debt as if it were listed; of cash, as such goods.
    OtherHaircuts,
    NotEligibleWithout,
    NotEligibleOther,
    UnratedBankListed,
    CashAsSecurity,
    /// What is netted: numbers cut to 8 bits; securities that are alike together; the
    /// settlement currency too; cash, or securities, alone in currencies; each security's
    /// currency by itself; currencies behind the haircuts.
    SecuritiesCut,
    CurrenciesCut,
    AlikeTogether,
    SettlementToo,
    CurrenciesOfCash,
    CurrenciesOfSecurities,
    CurrencyBySecurity,
    CurrencyBehindHaircuts,
    /// Nets of securities or currencies: lent and received added; with their sign; of one
    /// side alone; all together; none.
    SecuritiesAdded,
    CurrenciesAdded,
    SecuritiesSigned,
    CurrenciesSigned,
    SecuritiesLent,
    CurrenciesLent,
    SecuritiesReceived,
    CurrenciesReceived,
    SecuritiesTogether,
    CurrenciesTogether,
    NoSecurities,
    NoCurrencies,
    /// Scaling: none; rounded down; of a sum of haircuts; of all that they come to.
    SecuritiesUnscaled,
    CurrenciesUnscaled,
    ScaledDown,
    SumScaled,
    AllScaled,
    /// Rounding: of each net, up or down; of securities and of currencies; of all, down, to
    /// the nearest, or up by one in any case.
    EachUp,
    EachDown,
    TwoSums,
    AllDown,
    AllNearest,
    OneMore,
    /// Bounds: none above; lent less received; lent and received; below 0 the same above it.
    NoCap,
    CapOfBalance,
    CapOfAll,
    BelowZero,
    /// The counterparty's weight: without its sovereign's; its sovereign's alone, or the
    /// smaller; a rated one with its sovereign's; of the other table.
    NoFloor,
    FloorAlone,
    FloorSmaller,
    FloorOfRated,
    OtherWeights,
    /// The weighted amount: rounded down, or to the nearest; of all that was lent; of E*
    /// before it is rounded; exchanged with E*.
    WeightedDown,
    WeightedNearest,
    WeightedLent,
    WeightedUnrounded,
    Exchanged,
}

use Mistake::*;

pub const MISTAKES: [Mistake; 58] = [
    LastLeftOut,
    FirstLeftOut,
    LeftOutPast16,
    IntervalAlone,
    Plus3,
    Plus5,
    Plus9,
    Plus19,
    OtherHaircuts,
    NotEligibleWithout,
    NotEligibleOther,
    UnratedBankListed,
    CashAsSecurity,
    SecuritiesCut,
    CurrenciesCut,
    AlikeTogether,
    SettlementToo,
    CurrenciesOfCash,
    CurrenciesOfSecurities,
    CurrencyBySecurity,
    CurrencyBehindHaircuts,
    SecuritiesAdded,
    CurrenciesAdded,
    SecuritiesSigned,
    CurrenciesSigned,
    SecuritiesLent,
    CurrenciesLent,
    SecuritiesReceived,
    CurrenciesReceived,
    SecuritiesTogether,
    CurrenciesTogether,
    NoSecurities,
    NoCurrencies,
    SecuritiesUnscaled,
    CurrenciesUnscaled,
    ScaledDown,
    SumScaled,
    AllScaled,
    EachUp,
    EachDown,
    TwoSums,
    AllDown,
    AllNearest,
    OneMore,
    NoCap,
    CapOfBalance,
    CapOfAll,
    BelowZero,
    NoFloor,
    FloorAlone,
    FloorSmaller,
    FloorOfRated,
    OtherWeights,
    WeightedDown,
    WeightedNearest,
    WeightedLent,
    WeightedUnrounded,
    Exchanged,
];

pub fn cells(title: &'static str) -> Cells {
    let tables = TABLES.into_iter();
    let of = |table| MISTAKES.map(|mistake| cell(&[table, mistake as u64]));
    Cells::new(title, tables.flat_map(of))
}

/// An accepted set and what it comes to.
pub fn meet(cells: &mut Cells, set: &NettingSet, nets: &Nets) {
    let due = nets.figures();
    for mistake in MISTAKES {
        if mistaken(set, nets, mistake) != due {
            cells.meet(&[set.table, mistake as u64]);
        }
    }
}

/// E* and the weighted amount with this mistake.
pub fn mistaken(set: &NettingSet, nets: &Nets, mistake: Mistake) -> [u64; 2] {
    if let Some(nets) = mistaken_nets::mistaken(set, mistake) {
        return nets.figures();
    }
    let exposure = mistaken_costs::mistaken(set, nets, mistake);
    let exposure = exposure.unwrap_or(nets.exposure());
    mistaken_weights::mistaken(set, nets, mistake, exposure)
}

#[cfg(test)]
mod tests {
    use super::*;
    use std::collections::HashSet;

    #[test]
    fn every_mistake_is_listed() {
        let numbers = HashSet::<u64>::from_iter(MISTAKES.map(|mistake| mistake as u64));
        assert_eq!(numbers.len(), Exchanged as usize);
        assert_eq!(cells("").all(), 2 * MISTAKES.len());
    }

    /// A million of main index equity lent, at ten days, of which 400,000 come back, against
    /// cash in two currencies.
    fn small() -> NettingSet {
        let positions = [
            [1, 1_000_000, 5, 7, 0, 0, 978],
            [2, 400_000, 5, 7, 0, 0, 978],
            [2, 100_000, 0, 1, 0, 0, 840],
            [2, 200_000, 0, 1, 0, 0, 978],
        ];
        let positions = positions.map(Into::into).to_vec();
        NettingSet::new([2, 3, 3, 0, 978, 6], positions)
    }

    #[test]
    fn what_mistakes_come_to() {
        let set = small();
        let nets = Nets::of(&set);
        // 300,000, 15 percent of 600,000 and 8 of 100,000.
        assert_eq!(nets.figures(), [398_000, 398_000]);
        let exposure = |mistake| mistaken(&set, &nets, mistake)[0];
        for (mistake, due) in [
            (LastLeftOut, 598_000),
            (FirstLeftOut, 0),
            (LeftOutPast16, 398_000),
            (IntervalAlone, 300_000 + 69_714 + 6_197),
            (OtherHaircuts, 428_000),
            (CashAsSecurity, 473_000),
            (SettlementToo, 300_000 + 90_000 + 8_000 + 32_000),
            (CurrenciesOfSecurities, 390_000),
            (SecuritiesAdded, 518_000),
            (CurrenciesSigned, 382_000),
            (SecuritiesReceived, 308_000),
            (NoCurrencies, 390_000),
            (NoCap, 398_000),
            (CapOfBalance, 300_000),
            (OneMore, 398_001),
        ] {
            assert_eq!(exposure(mistake), due, "{mistake:?}");
        }
        let weighted = |mistake| mistaken(&set, &nets, mistake)[1];
        assert_eq!(weighted(OtherWeights), 298_500);
        assert_eq!(weighted(WeightedLent), 1_000_000);
        assert_eq!(weighted(NoFloor), 398_000);
    }
}
