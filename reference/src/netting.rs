//! Netting sets of repo-style transactions under one master agreement (02: L6, L9;
//! CRE22.69 to CRE22.73).

use std::collections::BTreeMap;

use crate::edition;
use crate::netting_acceptance::check_set;
use crate::scaling::{netting_days, scaled};
use crate::share::WHOLE;
use crate::weights::set_weight;

/// Sides of a position.
pub(crate) const LENT: u64 = 1;
pub(crate) const RECEIVED: u64 = 2;
/// The security number of cash.
pub(crate) const NO_SECURITY: u64 = 0;

/// A position of a netting set.
#[derive(Clone, Copy, Debug, Default, PartialEq, Eq)]
pub struct Position {
    /// 1 lent, 2 received.
    pub side: u64,
    pub amount: u64,
    /// Number of the security, 1 to 999; 0 for cash.
    pub security: u64,
    pub goods: u64,
    pub step: u64,
    /// The security's own residual life.
    pub life: u64,
    pub currency: u64,
}

/// A netting set: the counterparty, how it settles, and its positions. Nothing is
/// tested before the set is netted.
#[derive(Clone, Debug, Default, PartialEq, Eq)]
pub struct NettingSet {
    /// The edition whose tables hold: 2 those of 2019, 3 those of 2023, both with
    /// the floor of the sovereign's weight (02: L9).
    pub table: u64,
    /// Counterparty: 1 sovereign, 2 bank, 3 corporate, 4 retail.
    pub class: u64,
    pub step: u64,
    /// Step of the counterparty's sovereign of incorporation.
    pub sovereign_step: u64,
    /// Settlement currency.
    pub settlement: u64,
    /// Business days between revaluations.
    pub interval: u64,
    pub positions: Vec<Position>,
}

/// Reply to a netting set: the figures, or the refusal with zeros beside it.
#[derive(Clone, Copy, Debug, Default, PartialEq, Eq)]
pub struct NettingReply {
    pub refusal: u64,
    /// E*, the exposure after netting.
    pub exposure: u64,
    /// The risk-weighted amount.
    pub weighted: u64,
}

impl From<[u64; 7]> for Position {
    fn from(fields: [u64; 7]) -> Self {
        let [side, amount, security, goods, step, life, currency] = fields;
        Position {
            side,
            amount,
            security,
            goods,
            step,
            life,
            currency,
        }
    }
}

impl NettingSet {
    /// A set of its own fields, in the order of the type, and its positions.
    pub fn new(fields: [u64; 6], positions: Vec<Position>) -> Self {
        let [table, class, step, sovereign_step, settlement, interval] = fields;
        NettingSet {
            table,
            class,
            step,
            sovereign_step,
            settlement,
            interval,
            positions,
        }
    }
}

impl Position {
    /// The amount, below 0 where it was received.
    fn signed(&self) -> i128 {
        let amount = i128::from(self.amount);
        if self.side == LENT {
            amount
        } else {
            -amount
        }
    }
}

/// Nets any set: the figures of an accepted one, or the refusal.
pub fn net_set(set: &NettingSet) -> NettingReply {
    match check_set(set) {
        Ok(()) => evaluated(set),
        Err(refusal) => NettingReply {
            refusal,
            ..NettingReply::default()
        },
    }
}

/// The reply to a set that is known to be accepted. No amount in it is above the
/// amount limit, so the product stays far inside `u64`.
fn evaluated(set: &NettingSet) -> NettingReply {
    let exposure = exposure_after(set);
    NettingReply {
        refusal: 0,
        exposure,
        weighted: (exposure * set_weight(set)).div_ceil(100),
    }
}

/// E*: lent less received and the haircuts of all nets, rounded up once, not below
/// 0 and not above all that was lent.
fn exposure_after(set: &NettingSet) -> u64 {
    let balance: i128 = set.positions.iter().map(Position::signed).sum();
    let millionths = balance * i128::from(WHOLE) + haircuts(set);
    let rounded = millionths.max(0).unsigned_abs().div_ceil(u128::from(WHOLE));
    rounded.min(u128::from(all_lent(set))) as u64
}

fn all_lent(set: &NettingSet) -> u64 {
    let lent = set.positions.iter().filter(|one| one.side == LENT);
    lent.map(|one| one.amount).sum()
}

/// What is netted as one signed sum.
#[derive(PartialEq, Eq, PartialOrd, Ord)]
enum Netted {
    Security(u64),
    Currency(u64),
}

/// Each absolute net times its haircut, all together in millionths. A haircut is
/// scaled by itself.
fn haircuts(set: &NettingSet) -> i128 {
    let days = netting_days(set.interval);
    let nets = nets(set).into_values();
    nets.map(|(net, haircut)| net.abs() * i128::from(scaled(haircut, days)))
        .sum()
}

/// The signed net and the table haircut of each security and of each currency
/// other than that of settlement. Entries for one security agree in all that its
/// haircut comes from.
fn nets(set: &NettingSet) -> BTreeMap<Netted, (i128, u32)> {
    let mut nets = BTreeMap::new();
    for position in &set.positions {
        for (netted, haircut) in parts(set, position) {
            nets.entry(netted).or_insert((0, haircut)).0 += position.signed();
        }
    }
    nets
}

/// The sums that a position enters, with their table haircuts. Received goods are
/// eligible, so that the haircut of goods not eligible is one of lent goods alone.
fn parts(set: &NettingSet, position: &Position) -> impl Iterator<Item = (Netted, u32)> {
    let &Position {
        security, currency, ..
    } = position;
    let tables = edition::tables(set.table);
    let own = tables.lent_haircut(position.goods, position.step, position.life);
    let security = (security != NO_SECURITY).then_some((Netted::Security(security), own));
    let currency =
        (currency != set.settlement).then_some((Netted::Currency(currency), tables.currency));
    security.into_iter().chain(currency)
}
