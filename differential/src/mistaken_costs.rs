//! E* mistaken though the nets are right: what they cost, how it is rounded, and its bounds.

use reference::NettingSet;

use crate::nets::{rounded_up, Net, Nets, Netted, WHOLE};
use crate::netting_mistakes::Mistake::{self, *};
use crate::periods::scaled;
use crate::table_haircuts::CURRENCY;

/// None of a mistake that is another's.
pub fn mistaken(set: &NettingSet, nets: &Nets, mistake: Mistake) -> Option<u64> {
    if let Some(exposure) = bounded(nets, mistake) {
        return Some(exposure);
    }
    let cost = total(nets, mistake).or_else(|| {
        let costs = nets.nets.iter().map(|net| cost(set, nets, net, mistake));
        costs.sum::<Option<i128>>()
    });
    cost.map(|cost| nets.exposure_of(nets.balance() + cost))
}

fn is_security(net: &Net) -> bool {
    matches!(net.of, Netted::Security(_))
}

/// What one net costs; None where the mistake is not one of single nets.
fn cost(set: &NettingSet, nets: &Nets, net: &Net, mistake: Mistake) -> Option<i128> {
    let signed = net.signed();
    let whose = is_security(net);
    let of = match mistake {
        SecuritiesAdded | SecuritiesSigned | SecuritiesLent | SecuritiesReceived | NoSecurities
        | SecuritiesUnscaled => whose,
        CurrenciesAdded | CurrenciesSigned | CurrenciesLent | CurrenciesReceived | NoCurrencies
        | CurrenciesUnscaled => !whose,
        ScaledDown | SumScaled | EachUp | EachDown => true,
        _ => return None,
    };
    if !of {
        return Some(net.cost());
    }
    let times = i128::from(net.scaled);
    Some(match mistake {
        SecuritiesAdded | CurrenciesAdded => (net.lent + net.received) * times,
        SecuritiesSigned | CurrenciesSigned => signed * times,
        SecuritiesLent | CurrenciesLent => signed.max(0) * times,
        SecuritiesReceived | CurrenciesReceived => (-signed).max(0) * times,
        SecuritiesUnscaled | CurrenciesUnscaled => signed.abs() * i128::from(net.haircut),
        ScaledDown => signed.abs() * i128::from(scaled_down(net.haircut, nets.days)),
        SumScaled => signed.abs() * i128::from(summed(set, nets, net)),
        EachUp => rounded_up(net.cost()) * WHOLE,
        EachDown => net.cost() / WHOLE * WHOLE,
        _ => 0,
    })
}

fn scaled_down(haircut: u64, days: u64) -> u64 {
    (haircut * haircut * days / 10).isqrt()
}

/// The haircut of a security that stands alone in its currency, scaled together with that
/// of the currency, which then has none.
fn summed(set: &NettingSet, nets: &Nets, net: &Net) -> u64 {
    let alone = |security: u64, currency: u64| {
        let mut entries = set.positions.iter().filter(|one| one.currency == currency);
        currency != set.settlement && entries.all(|one| one.security == security)
    };
    let mut entries = set.positions.iter();
    match net.of {
        Netted::Security(number) => match entries.find(|one| one.security == number) {
            Some(one) if alone(number, one.currency) => scaled(net.haircut + CURRENCY, nets.days),
            _ => net.scaled,
        },
        Netted::Currency(number) => match entries.find(|one| one.currency == number) {
            Some(one) if one.security > 0 && alone(one.security, number) => 0,
            _ => net.scaled,
        },
    }
}

/// What all nets cost together; None where the mistake is not one of them.
fn total(nets: &Nets, mistake: Mistake) -> Option<i128> {
    let of = |security: bool| {
        nets.nets
            .iter()
            .filter(move |net| is_security(net) == security)
    };
    let cost = |security: bool| of(security).map(Net::cost).sum::<i128>();
    let signed = |security: bool| {
        let costs = of(security).map(|net| net.signed() * i128::from(net.scaled));
        costs.sum::<i128>().abs()
    };
    match mistake {
        SecuritiesTogether => Some(signed(true) + cost(false)),
        CurrenciesTogether => Some(cost(true) + signed(false)),
        TwoSums => Some(
            [true, false]
                .map(|of| rounded_up(cost(of)) * WHOLE)
                .iter()
                .sum(),
        ),
        AllScaled => Some(all_scaled(nets)),
        _ => None,
    }
}

fn all_scaled(nets: &Nets) -> i128 {
    let costs = nets.nets.iter();
    let costs = costs.map(|net| net.signed().unsigned_abs() * u128::from(net.haircut));
    let all = costs.sum::<u128>();
    let square = (all * all * u128::from(nets.days)).div_ceil(10);
    let root = square.isqrt();
    (root + u128::from(root * root < square)) as i128
}

/// Rounding and bounds.
fn bounded(nets: &Nets, mistake: Mistake) -> Option<u64> {
    let millionths = nets.millionths();
    let up = rounded_up(millionths).max(0);
    let down = millionths.div_euclid(WHOLE);
    let exposure = match mistake {
        AllDown => down.clamp(0, nets.lent),
        AllNearest => (millionths + WHOLE / 2)
            .div_euclid(WHOLE)
            .clamp(0, nets.lent),
        OneMore => (down + 1).clamp(0, nets.lent),
        NoCap => up,
        CapOfBalance => up.min((nets.lent - nets.received).max(0)),
        CapOfAll => up.min(nets.lent + nets.received),
        BelowZero => rounded_up(millionths).abs().min(nets.lent),
        _ => return None,
    };
    Some(exposure as u64)
}
