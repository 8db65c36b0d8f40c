//! Value and losses of an item of protection, or the ground for leaving it out
//! (01: From items to the weighted amount, 1 and 2; Grounds for leaving an item
//! out; 02: L1, L2). The grounds are tested in the paper's order and the first
//! one ends it.

use crate::maturity::maturity_share;
use crate::outcome::{Outcome, Valuation};
use crate::record::{Collateral, Cover, Guarantee, Terms};
use crate::scaling::{deal_days, guarantee_days, scaled};
use crate::share::{Share, Split};
use crate::weights::{counterparty_weight, provider_weight};
use crate::{edition, ground, tables};

/// Outcome of an item of collateral of an accepted deal.
pub fn collateral_outcome(terms: &Terms, item: &Collateral) -> Outcome {
    Outcome::of(item.amount, valued_collateral(terms, item))
}

/// Outcome of a guarantee or swap of an accepted deal.
pub fn cover_outcome(terms: &Terms, item: &Cover) -> Outcome {
    Outcome::of(item.guarantee().amount, valued_cover(terms, item))
}

fn valued_collateral(terms: &Terms, item: &Collateral) -> Result<Valuation, u8> {
    ensure(item.lawful == 1, ground::NOT_LAWFUL)?;
    ensure(item.unrelated == 1, ground::RELATED)?;
    ensure(item.unreflected == 1, ground::IN_RATING)?;
    let haircut = edition::tables(terms.edition)
        .collateral_haircut(item.goods, item.step, item.life, item.listed == 1)
        .ok_or(ground::NOT_ELIGIBLE)?;
    let surviving = maturity_share(item.residual, item.original, terms.residual)?;

    let days = deal_days(terms.kind, terms.interval);
    let haircuts = scaled(haircut, days) + currency_haircut(terms, item.currency, days);
    let uncut = Share::ALL.split(item.amount);
    Ok(Valuation::of(uncut, Share::left_by(haircuts), surviving))
}

/// A swap's own cut is rounded before the currency and the maturity take their
/// parts.
fn valued_cover(terms: &Terms, item: &Cover) -> Result<Valuation, u8> {
    let sent = item.guarantee();
    let surviving = recognised(terms, sent)?;
    let haircut = currency_haircut(terms, sent.currency, guarantee_days(terms.interval));
    let haircut = Share::left_by(haircut);
    Ok(Valuation::of(cut(terms, item), haircut, surviving))
}

/// The amount that counts before currency and maturity, and what it lacks of the
/// sent one. Where restructuring is no credit event, only a part of the hedge
/// counts, and of the deal's amount at most (CRE22.87); else the whole, above the
/// deal's amount too.
fn cut(terms: &Terms, item: &Cover) -> Split {
    let amount = item.guarantee().amount;
    match item {
        Cover::Swap(swap) if swap.restructuring == 0 => {
            let above = amount.saturating_sub(terms.amount);
            let cut = Share::SIXTY_PERCENT.split(amount.min(terms.amount));
            Split {
                taken: above + cut.taken,
                ..cut
            }
        }
        _ => Share::ALL.split(amount),
    }
}

/// The share of a guarantee's or swap's value that its maturity leaves, or the
/// ground for leaving it out.
fn recognised(terms: &Terms, item: &Guarantee) -> Result<Share, u8> {
    ensure(item.lawful == 1, ground::NOT_LAWFUL)?;
    ensure(item.direct == 1, ground::NOT_DIRECT)?;
    ensure(item.unreflected == 1, ground::IN_RATING)?;
    let unrated_entity = item.class == tables::OTHER_ENTITY && item.step == 0;
    ensure(!unrated_entity, ground::UNRATED_PROVIDER)?;
    let surviving = maturity_share(item.residual, item.original, terms.residual)?;
    ensure(
        provider_weight(item, terms.edition) < counterparty_weight(terms),
        ground::WEIGHT_NOT_LOWER,
    )?;
    Ok(surviving)
}

/// Scaled by itself, before it is added to another haircut.
fn currency_haircut(terms: &Terms, cover: u64, days: u64) -> u64 {
    if cover == terms.currency {
        0
    } else {
        scaled(edition::tables(terms.edition).currency, days)
    }
}

fn ensure(met: bool, ground: u8) -> Result<(), u8> {
    met.then_some(()).ok_or(ground)
}
