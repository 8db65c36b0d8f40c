//! Opening a deal, adding to it, and the test of a whole record
//! (01: The four operations; 02: L1, L5, L9, L11). Netting sets share the tests of
//! single fields.

use crate::record::{
    place, Collateral, Cover, Guarantee, Record, Swap, Terms, AMOUNT_LIMIT, DAYS_LIMIT, LIST_LIMIT,
};
use crate::{edition, refusal, tables};

/// Opens a deal with empty lists, or gives the refusal.
pub fn open(terms: Terms) -> Result<Record, u64> {
    check_terms(&terms)?;
    Ok(Record::new(terms))
}

/// Adds an item of collateral and gives 0, or gives the refusal and leaves the
/// record as it was.
pub fn add_collateral(record: &mut Record, item: Collateral) -> u64 {
    if !is_accepted(record) {
        return refusal::RECORD;
    }
    number(push_collateral(record, item))
}

/// Adds a guarantee and gives 0, or gives the refusal and leaves the record as
/// it was.
pub fn add_guarantee(record: &mut Record, item: Guarantee) -> u64 {
    add_cover(record, item.into())
}

/// Adds a swap to the list of guarantees and gives 0, or gives the refusal and
/// leaves the record as it was.
pub fn add_swap(record: &mut Record, item: Swap) -> u64 {
    add_cover(record, item.into())
}

fn add_cover(record: &mut Record, item: Cover) -> u64 {
    if !is_accepted(record) {
        return refusal::RECORD;
    }
    number(push_cover(record, item))
}

/// Adding without the test for 40, for a record that is known to be accepted.
pub(crate) fn push_collateral(record: &mut Record, item: Collateral) -> Result<(), u64> {
    let next = record.collateral.get_mut(place(record.collateral_count));
    let next = next.ok_or(refusal::FULL)?;
    check_collateral(&item)?;
    *next = item;
    record.collateral_count += 1;
    Ok(())
}

/// Adding without the test for 40, for a record that is known to be accepted.
pub(crate) fn push_cover(record: &mut Record, item: Cover) -> Result<(), u64> {
    let next = record.guarantees.get_mut(place(record.guarantee_count));
    let next = next.ok_or(refusal::FULL)?;
    check_cover(&item)?;
    *next = item;
    record.guarantee_count += 1;
    Ok(())
}

/// Whether reporting's 40 does not fall on the record.
pub(crate) fn is_accepted(record: &Record) -> bool {
    let limit = LIST_LIMIT as u64;
    let items = || {
        let mut collateral = record.counted_collateral().iter();
        let mut guarantees = record.counted_guarantees().iter();
        collateral.all(|item| check_collateral(item).is_ok())
            && guarantees.all(|item| check_cover(item).is_ok())
    };
    record.collateral_count <= limit
        && record.guarantee_count <= limit
        && check_terms(&record.terms).is_ok()
        && items()
}

fn check_terms(terms: &Terms) -> Result<(), u64> {
    ensure(terms.amount <= AMOUNT_LIMIT, refusal::AMOUNT)?;
    ensure(edition::is_known(terms.edition), refusal::CODE)?;
    ensure((1..=4).contains(&terms.class), refusal::CODE)?;
    ensure((1..=3).contains(&terms.kind), refusal::CODE)?;
    ensure((1..=9).contains(&terms.lent_goods), refusal::CODE)?;
    check_counterparty_steps(terms.class, terms.step, terms.sovereign_step)?;
    check_goods_step(terms.lent_goods, terms.lent_step)?;
    check_currency(terms.currency)?;
    ensure((1..=250).contains(&terms.interval), refusal::DAYS)?;
    ensure(is_term(terms.residual), refusal::DAYS)?;
    check_issue_life(terms.lent_goods, terms.lent_life)
}

fn check_collateral(item: &Collateral) -> Result<(), u64> {
    ensure(item.amount <= AMOUNT_LIMIT, refusal::AMOUNT)?;
    ensure((1..=9).contains(&item.goods), refusal::CODE)?;
    check_goods_step(item.goods, item.step)?;
    check_currency(item.currency)?;
    check_issue_life(item.goods, item.life)?;
    check_maturity(item.residual, item.original)?;
    check_conditions([item.lawful, item.unrelated, item.unreflected, item.listed])
}

fn check_cover(item: &Cover) -> Result<(), u64> {
    match item {
        Cover::Guarantee(item) => check_guarantee(item),
        Cover::Swap(item) => check_swap(item),
    }
}

/// The restructuring condition comes last: it is one of those that 8 tests.
fn check_swap(item: &Swap) -> Result<(), u64> {
    check_guarantee(&item.guarantee)?;
    check_conditions([item.restructuring])
}

fn check_guarantee(item: &Guarantee) -> Result<(), u64> {
    ensure(item.amount <= AMOUNT_LIMIT, refusal::AMOUNT)?;
    ensure((1..=3).contains(&item.class), refusal::CODE)?;
    ensure(is_step(item.step, false), refusal::STEP)?;
    check_sovereign_step(item.class, item.sovereign_step)?;
    check_currency(item.currency)?;
    check_maturity(item.residual, item.original)?;
    check_conditions([item.lawful, item.direct, item.unreflected])
}

/// The step of a counterparty, which is 0 for retail, and its sovereign's.
pub(crate) fn check_counterparty_steps(
    class: u64,
    step: u64,
    sovereign_step: u64,
) -> Result<(), u64> {
    let retail = class == tables::RETAIL;
    ensure(is_step(step, retail), refusal::STEP)?;
    check_sovereign_step(class, sovereign_step)
}

/// Sovereigns and retail have no sovereign of incorporation: theirs is sent as
/// 0, under every edition (02: L5).
fn check_sovereign_step(class: u64, step: u64) -> Result<(), u64> {
    ensure(is_step(step, !tables::has_sovereign(class)), refusal::STEP)
}

pub(crate) fn check_goods_step(goods: u64, step: u64) -> Result<(), u64> {
    ensure(is_step(step, !tables::is_debt(goods)), refusal::STEP)
}

pub(crate) fn check_currency(currency: u64) -> Result<(), u64> {
    ensure((1..=999).contains(&currency), refusal::CURRENCY)
}

/// Goods other than debt have no issue life: theirs is sent as 0.
pub(crate) fn check_issue_life(goods: u64, life: u64) -> Result<(), u64> {
    let fits = if tables::is_debt(goods) {
        is_term(life)
    } else {
        life == 0
    };
    ensure(fits, refusal::DAYS)
}

/// The terms of a pledge, guarantee or swap: both in range, then one against the
/// other.
fn check_maturity(residual: u64, original: u64) -> Result<(), u64> {
    ensure(is_term(residual) && is_term(original), refusal::DAYS)?;
    ensure(residual <= original, refusal::RESIDUAL)
}

fn check_conditions<const N: usize>(conditions: [u64; N]) -> Result<(), u64> {
    ensure(
        conditions.iter().all(|&condition| condition <= 1),
        refusal::CONDITION,
    )
}

fn is_step(step: u64, zero_due: bool) -> bool {
    step <= if zero_due { 0 } else { 6 }
}

/// Whether the days can be a term, or the issue life of debt.
fn is_term(days: u64) -> bool {
    (1..=DAYS_LIMIT).contains(&days)
}

pub(crate) fn ensure(met: bool, refusal: u64) -> Result<(), u64> {
    met.then_some(()).ok_or(refusal)
}

fn number(added: Result<(), u64>) -> u64 {
    added.err().unwrap_or(0)
}
