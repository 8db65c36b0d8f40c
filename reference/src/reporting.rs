//! Reporting a deal (01: From items to the weighted amount; Reporting a deal;
//! 02: L1, L2).

use crate::acceptance::is_accepted;
use crate::outcome::Outcome;
use crate::protection::{collateral_outcome, cover_outcome};
use crate::record::{Record, Terms, LIST_LIMIT};
use crate::scaling::{deal_days, scaled};
use crate::share::raised;
use crate::weights::{counterparty_weight, provider_weight};
use crate::{edition, refusal};

/// The report of a deal. Items stand in order of adding; places past a count
/// hold a value, losses and a portion of 0.
#[derive(Clone, Debug, Default, PartialEq, Eq)]
pub struct Report {
    /// 0, or 40 with zeros in all the rest.
    pub refusal: u64,
    /// E*, the exposure after collateral.
    pub exposure: u64,
    pub collateral: [Outcome; LIST_LIMIT],
    /// Each guarantee's or swap's outcome and the portion of E* that it covers.
    pub guarantees: [(Outcome, u64); LIST_LIMIT],
    /// The part of E* that no guarantee or swap covers.
    pub rest: u64,
    /// The risk-weighted amount.
    pub weighted: u64,
}

/// Reports any record: the figures of an accepted deal, or refusal 40.
pub fn report(record: &Record) -> Report {
    if is_accepted(record) {
        evaluated(record)
    } else {
        Report {
            refusal: refusal::RECORD,
            ..Report::default()
        }
    }
}

/// The report of a record that is known to be accepted.
pub(crate) fn evaluated(record: &Record) -> Report {
    let mut report = Report::default();
    value_collateral(record, &mut report);
    report.exposure = exposure_after(&record.terms, &report.collateral);
    value_guarantees(record, &mut report);
    cover(record, &mut report);
    report
}

fn value_collateral(record: &Record, report: &mut Report) {
    for (item, place) in record
        .counted_collateral()
        .iter()
        .zip(&mut report.collateral)
    {
        *place = collateral_outcome(&record.terms, item);
    }
}

/// E*: the raised exposure less all collateral, not below 0 and never above the
/// deal's amount (CRE22.4 decides over CRE22.40). The sum of the values stays
/// within sixteen times the amount limit.
fn exposure_after(terms: &Terms, collateral: &[Outcome]) -> u64 {
    let tables = edition::tables(terms.edition);
    let haircut = tables.lent_haircut(terms.lent_goods, terms.lent_step, terms.lent_life);
    let days = deal_days(terms.kind, terms.interval);
    raised(terms.amount, scaled(haircut, days))
        .saturating_sub(collateral.iter().map(Outcome::value).sum())
        .min(terms.amount)
}

fn value_guarantees(record: &Record, report: &mut Report) {
    for (item, place) in record
        .counted_guarantees()
        .iter()
        .zip(&mut report.guarantees)
    {
        place.0 = cover_outcome(&record.terms, item);
    }
}

/// Lets the recognised guarantees and swaps cover E* in a single rising order of
/// weight and gives the rest the counterparty's weight. The division by 100 comes
/// once, at the end, so that no portion is rounded by itself.
fn cover(record: &Record, report: &mut Report) {
    let mut rest = report.exposure;
    let mut hundredfold = 0;
    let mut ranking = [(0, 0); LIST_LIMIT];
    for &(weight, place) in ranked(record, report, &mut ranking) {
        let (outcome, portion) = &mut report.guarantees[place];
        *portion = rest.min(outcome.value());
        rest -= *portion;
        hundredfold += u128::from(*portion) * u128::from(weight);
    }
    hundredfold += u128::from(rest) * u128::from(counterparty_weight(&record.terms));
    report.rest = rest;
    report.weighted = hundredfold.div_ceil(100) as u64;
}

/// Weight and place of each recognised guarantee and swap by rising weight. The
/// sort is stable, so equal weights stay in order of adding.
fn ranked<'a>(
    record: &Record,
    report: &Report,
    ranking: &'a mut [(u64, usize); LIST_LIMIT],
) -> &'a [(u64, usize)] {
    let mut recognised = 0;
    for (place, item) in record.counted_guarantees().iter().enumerate() {
        if matches!(report.guarantees[place].0, Outcome::Valued(_)) {
            let weight = provider_weight(item.guarantee(), record.terms.edition);
            ranking[recognised] = (weight, place);
            recognised += 1;
        }
    }
    let ranking = &mut ranking[..recognised];
    ranking.sort_by_key(|&(weight, _)| weight);
    ranking
}
