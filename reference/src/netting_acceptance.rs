//! The test of a netting set (02: L6, L9): its own fields, its positions one after
//! the other, then what only all positions together show.

use std::collections::BTreeMap;

use crate::acceptance::{
    check_counterparty_steps, check_currency, check_goods_step, check_issue_life, ensure,
};
use crate::netting::{NettingSet, Position, LENT, NO_SECURITY, RECEIVED};
use crate::record::AMOUNT_LIMIT;
use crate::{edition, refusal, tables};

/// Most positions of a set.
const POSITION_LIMIT: usize = 32;

/// The first refusal that the set meets.
pub fn check_set(set: &NettingSet) -> Result<(), u64> {
    check_own_fields(set)?;
    let positions = set.positions.as_slice();
    ensure(positions.len() <= POSITION_LIMIT, refusal::FULL)?;
    positions.iter().try_for_each(check_position)?;
    ensure(securities_agree(positions), refusal::SECURITY)?;
    ensure(received_are_eligible(set), refusal::NOT_ELIGIBLE)?;
    // No sum of so many amounts within the limit leaves `u64`.
    let total: u64 = positions.iter().map(|one| one.amount).sum();
    ensure(total <= AMOUNT_LIMIT, refusal::TOTAL)
}

fn check_own_fields(set: &NettingSet) -> Result<(), u64> {
    ensure(edition::is_netting_table(set.table), refusal::CODE)?;
    ensure((1..=4).contains(&set.class), refusal::CODE)?;
    check_counterparty_steps(set.class, set.step, set.sovereign_step)?;
    check_currency(set.settlement)?;
    ensure((1..=60).contains(&set.interval), refusal::DAYS)
}

fn check_position(position: &Position) -> Result<(), u64> {
    ensure(position.amount <= AMOUNT_LIMIT, refusal::AMOUNT)?;
    ensure(matches!(position.side, LENT | RECEIVED), refusal::CODE)?;
    ensure((1..=9).contains(&position.goods), refusal::CODE)?;
    check_goods_step(position.goods, position.step)?;
    check_currency(position.currency)?;
    let cash = position.goods == tables::CASH;
    let numbered = position.security != NO_SECURITY;
    ensure(position.security <= 999 && cash != numbered, refusal::DAYS)?;
    check_issue_life(position.goods, position.life)
}

/// Whether all entries for one security have the same type, step, life and
/// currency.
fn securities_agree(positions: &[Position]) -> bool {
    let mut known = BTreeMap::new();
    let mut securities = positions.iter().filter(|one| one.security != NO_SECURITY);
    securities.all(|one| {
        let sent = [one.goods, one.step, one.life, one.currency];
        *known.entry(one.security).or_insert(sent) == sent
    })
}

/// Whether all goods received are eligible as collateral, whatever their amount
/// and net. Positions have no entry for listed senior paper, so unrated bank debt
/// is not.
fn received_are_eligible(set: &NettingSet) -> bool {
    let tables = edition::tables(set.table);
    let mut received = set.positions.iter().filter(|one| one.side == RECEIVED);
    received.all(|one| {
        let haircut = tables.collateral_haircut(one.goods, one.step, one.life, false);
        haircut.is_some()
    })
}
