//! Nets of a set that are mistaken: positions left out, another period, other haircuts, other
//! things netted.

use reference::{NettingSet, Position};

use crate::draft::goods_of;
use crate::nets::{own_haircut, period, Nets, Netted};
use crate::netting_mistakes::Mistake::{self, *};
use crate::set::{CASH, NO_SECURITY};
use crate::set_goods::is_eligible;
use crate::table_haircuts::{self, CURRENCY};

/// None of a mistake that is another's.
pub fn mistaken(set: &NettingSet, mistake: Mistake) -> Option<Nets> {
    let days = |more| Some(grouped(set, mistake, set.interval + more));
    match mistake {
        LastLeftOut | FirstLeftOut | LeftOutPast16 => {
            let mut fewer = set.clone();
            let positions = &mut fewer.positions;
            match mistake {
                LeftOutPast16 => positions.truncate(16),
                LastLeftOut => drop(positions.pop()),
                _ => drop(positions.drain(..positions.len().min(1))),
            }
            Some(Nets::of(&fewer))
        }
        IntervalAlone => days(0),
        Plus3 => days(3),
        Plus5 => days(5),
        Plus9 => days(9),
        Plus19 => days(19),
        CurrencyBehindHaircuts => Some(behind_haircuts(set)),
        OtherHaircuts
        | NotEligibleWithout
        | NotEligibleOther
        | UnratedBankListed
        | CashAsSecurity
        | SecuritiesCut
        | CurrenciesCut
        | AlikeTogether
        | SettlementToo
        | CurrenciesOfCash
        | CurrenciesOfSecurities
        | CurrencyBySecurity => Some(grouped(set, mistake, period(set.interval))),
        _ => None,
    }
}

pub fn other_table(table: u64) -> u64 {
    5 - table
}

fn grouped(set: &NettingSet, mistake: Mistake, days: u64) -> Nets {
    let mut nets = Nets::without_haircuts(set, days);
    for one in &set.positions {
        if let Some(security) = security(set, one, mistake) {
            let haircut = haircut(set, one, mistake);
            nets.enter(Netted::Security(security), one, haircut);
        }
        if let Some(currency) = currency(set, one, mistake) {
            nets.enter(Netted::Currency(currency), one, CURRENCY);
        }
    }
    nets
}

/// The security that a position is taken for.
fn security(set: &NettingSet, one: &Position, mistake: Mistake) -> Option<u64> {
    let alike =
        |other: &&Position| goods_of(other) == goods_of(one) && other.currency == one.currency;
    match mistake {
        CashAsSecurity => Some(one.security),
        SecuritiesCut => Some(one.security & 0xff).filter(|number| *number != NO_SECURITY),
        _ if one.goods == CASH => None,
        AlikeTogether => {
            let first = set.positions.iter().find(alike);
            first.map(|first| first.security)
        }
        _ => Some(one.security),
    }
}

/// The currency that a position is counted in, but for that of settlement.
fn currency(set: &NettingSet, one: &Position, mistake: Mistake) -> Option<u64> {
    let other = one.currency != set.settlement;
    match mistake {
        SettlementToo => Some(one.currency),
        CurrenciesCut => {
            let [currency, settlement] = [one.currency, set.settlement].map(|of| of & 0xff);
            (currency != settlement).then_some(currency)
        }
        CurrenciesOfCash => (other && one.goods == CASH).then_some(one.currency),
        CurrenciesOfSecurities => (other && one.goods != CASH).then_some(one.currency),
        CurrencyBySecurity => other.then_some(one.currency * 1000 + one.security),
        _ => other.then_some(one.currency),
    }
}

fn haircut(set: &NettingSet, one: &Position, mistake: Mistake) -> u64 {
    let other = other_table(set.table);
    match mistake {
        OtherHaircuts => own_haircut(other, one),
        CashAsSecurity if one.goods == CASH => table_haircuts::not_eligible(set.table),
        UnratedBankListed if [one.goods, one.step] == [4, 0] => {
            table_haircuts::of(set.table, goods_of(one), true).unwrap_or(0)
        }
        NotEligibleWithout if !is_eligible(goods_of(one)) => 0,
        NotEligibleOther if !is_eligible(goods_of(one)) => table_haircuts::not_eligible(other),
        _ => own_haircut(set.table, one),
    }
}

/// What securities cost counts in their currencies too.
fn behind_haircuts(set: &NettingSet) -> Nets {
    let mut nets = Nets::of(set);
    let (securities, mut currencies): (Vec<_>, Vec<_>) =
        (nets.nets.into_iter()).partition(|net| matches!(net.of, Netted::Security(_)));
    for net in &mut currencies {
        let inside = securities.iter().filter(|security| {
            let mut entries = set.positions.iter();
            let of = entries.find(|one| Netted::Security(one.security) == security.of);
            of.is_some_and(|one| Netted::Currency(one.currency) == net.of)
        });
        net.lent += inside.map(|net| net.cost() / 1_000_000).sum::<i128>();
    }
    nets.nets = [securities, currencies].concat();
    nets
}
