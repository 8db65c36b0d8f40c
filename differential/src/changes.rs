//! What the tables of 2023 change in a deal that is reported under an earlier
//! edition and under edition 3, each to be met where a single figure of the tables
//! is the cause.

use hadlephoga::{Cover, Outcome, Record, Report, Terms};

use crate::cells::{cell, Cells};

const EARLIER: [u64; 2] = [1, 2];

/// What changes.
const GROUND_29_MADE: u64 = 1;
const GROUND_29_UNMADE: u64 = 2;
const ORDER: u64 = 3;
const WEIGHTED_AMOUNT: u64 = 4;
const VALUE: u64 = 5;
const EXPOSURE: u64 = 6;

/// Whose weight is the cause.
const COUNTERPARTY: u64 = 1;
const PROVIDER: u64 = 2;

/// A party: class and step.
type Party = [u64; 2];
const UNRATED_BANK: Party = [2, 0];
const BANK_AT_STEP_2: Party = [2, 2];
const CLASS_3_AT_STEP_3: Party = [3, 3];
const UNRATED_CORPORATE: Party = [3, 0];
/// Those whose weight changes.
const CHANGED: [Party; 3] = [UNRATED_BANK, BANK_AT_STEP_2, CLASS_3_AT_STEP_3];

/// Lent goods that are not eligible as collateral, of any type.
const NOT_ELIGIBLE: u64 = 0;
/// Beside the figure under the earlier edition.
const LOWER: u64 = 1;
const HIGHER: u64 = 2;

/// What a weight can change. An unrated bank weighs no less than any
/// counterparty, so that it has no place in an order of cover; and no provider
/// lies between the weights of a counterparty that falls.
const BY_WEIGHT: [(u64, u64, Party); 9] = [
    (GROUND_29_MADE, PROVIDER, UNRATED_BANK),
    (GROUND_29_UNMADE, PROVIDER, BANK_AT_STEP_2),
    (GROUND_29_UNMADE, PROVIDER, CLASS_3_AT_STEP_3),
    (GROUND_29_UNMADE, COUNTERPARTY, UNRATED_BANK),
    (ORDER, PROVIDER, BANK_AT_STEP_2),
    (ORDER, PROVIDER, CLASS_3_AT_STEP_3),
    (WEIGHTED_AMOUNT, COUNTERPARTY, UNRATED_BANK),
    (WEIGHTED_AMOUNT, COUNTERPARTY, BANK_AT_STEP_2),
    (WEIGHTED_AMOUNT, COUNTERPARTY, CLASS_3_AT_STEP_3),
];

/// What a haircut can change: value or exposure, by type.
const BY_HAIRCUT: [(u64, u64, u64); 15] = [
    (VALUE, 3, LOWER),
    (VALUE, 3, HIGHER),
    (VALUE, 4, LOWER),
    (VALUE, 4, HIGHER),
    (VALUE, 7, LOWER),
    (VALUE, 8, LOWER),
    (VALUE, 9, LOWER),
    (EXPOSURE, 3, LOWER),
    (EXPOSURE, 3, HIGHER),
    (EXPOSURE, 4, LOWER),
    (EXPOSURE, 4, HIGHER),
    (EXPOSURE, 7, HIGHER),
    (EXPOSURE, 8, HIGHER),
    (EXPOSURE, 9, HIGHER),
    (EXPOSURE, NOT_ELIGIBLE, HIGHER),
];

/// By the earlier edition; what changes; then whose weight, class and step, or
/// type and direction.
pub fn cells(title: &'static str) -> Cells {
    let of = |earlier| {
        let by_weight = BY_WEIGHT.iter().map(move |(what, whose, [class, step])| {
            cell(&[earlier, *what, *whose, *class, *step])
        });
        let by_haircut = BY_HAIRCUT
            .iter()
            .map(move |(what, goods, direction)| cell(&[earlier, *what, *goods, *direction]));
        by_weight.chain(by_haircut)
    };
    Cells::new(title, EARLIER.into_iter().flat_map(of))
}

/// A deal under an earlier edition, and its reports under that and under edition
/// 3. Sovereigns are the same in both, or the earlier edition has no floor.
pub fn meet(cells: &mut Cells, earlier: &Record, [before, after]: [&Report; 2]) {
    meet_haircuts(cells, earlier, [before, after]);
    let edition = earlier.terms.edition;
    let counterparty = [earlier.terms.class, earlier.terms.step];
    if edition == 1 && counterparty == UNRATED_CORPORATE {
        return; // The floor may be the cause as well.
    }
    let counted = earlier.guarantee_count as usize;
    let providers = earlier
        .guarantees
        .iter()
        .map(|item| [item.class, item.step]);
    let covers = before.guarantees.iter().zip(&after.guarantees);
    let covers = Vec::from_iter(providers.zip(covers).take(counted));
    for (provider, (before, after)) in &covers {
        meet_ground(cells, edition, [counterparty, *provider], [before, after]);
    }
    let same_outcomes = (covers.iter()).all(|(_, (one, other))| one.outcome == other.outcome);
    if before.exposure != after.exposure || !same_outcomes {
        return;
    }
    for (provider, (before, after)) in &covers {
        if after.portion > before.portion {
            let [class, step] = *provider;
            cells.meet(&[edition, ORDER, PROVIDER, class, step]);
        }
    }
    let by_provider = (covers.iter())
        .any(|(provider, (_, after))| after.portion > 0 && CHANGED.contains(provider));
    if before.weighted_amount != after.weighted_amount && !by_provider {
        let [class, step] = counterparty;
        cells.meet(&[edition, WEIGHTED_AMOUNT, COUNTERPARTY, class, step]);
    }
}

/// Counts a ground 29 that comes or goes by the weight of one of the two.
fn meet_ground(
    cells: &mut Cells,
    edition: u64,
    [counterparty, provider]: [Party; 2],
    [before, after]: [&Cover; 2],
) {
    let what = match [before.outcome, after.outcome] {
        [Outcome::Valued(_), Outcome::LeftOut { .. }] => GROUND_29_MADE,
        [Outcome::LeftOut { .. }, Outcome::Valued(_)] => GROUND_29_UNMADE,
        _ => return,
    };
    let (whose, [class, step]) = match [counterparty, provider].map(|of| CHANGED.contains(&of)) {
        [true, true] => return,
        [true, false] => (COUNTERPARTY, counterparty),
        _ => (PROVIDER, provider),
    };
    cells.meet(&[edition, what, whose, class, step]);
}

/// Counts the values that change and, where none does, the exposure.
fn meet_haircuts(cells: &mut Cells, earlier: &Record, [before, after]: [&Report; 2]) {
    let terms = &earlier.terms;
    let edition = terms.edition;
    let values = before.collateral.iter().zip(&after.collateral);
    let values = earlier.collateral.iter().zip(values);
    for (item, (before, after)) in values.take(earlier.collateral_count as usize) {
        if let Some(direction) = direction(before.value(), after.value()) {
            cells.meet(&[edition, VALUE, item.goods, direction]);
        }
    }
    let [values, others] = [before, after].map(|of| of.collateral.map(|item| item.value()));
    if values == others {
        if let Some(direction) = direction(before.exposure, after.exposure) {
            cells.meet(&[edition, EXPOSURE, lent(terms), direction]);
        }
    }
}

fn direction(before: u64, after: u64) -> Option<u64> {
    match before.cmp(&after) {
        std::cmp::Ordering::Less => Some(HIGHER),
        std::cmp::Ordering::Equal => None,
        std::cmp::Ordering::Greater => Some(LOWER),
    }
}

/// The type of what is lent, where that would be eligible as collateral.
fn lent(terms: &Terms) -> u64 {
    let eligible = match (terms.lent_type, terms.lent_step) {
        (2, step) => (1..=4).contains(&step),
        (3..=5, step) => (1..=3).contains(&step),
        (goods, _) => goods != 6,
    };
    match eligible {
        true => terms.lent_type,
        false => NOT_ELIGIBLE,
    }
}

#[cfg(test)]
mod tests {
    use super::*;
    use hadlephoga::{Collateral, HeldGuarantee};

    #[test]
    fn every_change_is_listed() {
        assert_eq!(cells("").all(), 2 * (9 + 15));
    }

    /// What changes from edition 2 to edition 3, without the first number.
    fn changes(record: &Record) -> Vec<[u64; 4]> {
        let reports = [2, 3].map(|edition| {
            let mut record = record.clone();
            record.terms.edition = edition;
            hadlephoga::report(&record).expect("an accepted deal")
        });
        let mut met = cells("");
        meet(&mut met, record, [&reports[0], &reports[1]]);
        assert_eq!(met.unlisted().count(), 0);
        let met = met.counts().filter(|(_, count)| *count > 0);
        met.map(|(cell, _)| [cell[1], cell[2], cell[3], cell[4]])
            .collect()
    }

    /// A loan of 100 for 90 days to a party, with guarantees of 60.
    fn loan([class, step]: Party, providers: &[Party]) -> Record {
        let terms = [100, class, step, 0, 978, 3, 1, 90, 1, 0, 0, 2];
        let of = |[class, step]: &Party| {
            HeldGuarantee::from_numbers(&[60, *class, *step, 0, 978, 90, 90, 1, 1, 1, 0])
        };
        let providers = Vec::from_iter(providers.iter().map(of));
        Record::new(Terms::from_numbers(&terms), &[], &providers)
    }

    #[test]
    fn changes_by_weight() {
        let weighted = |class, step| [WEIGHTED_AMOUNT, COUNTERPARTY, class, step];
        assert_eq!(changes(&loan([2, 2], &[])), [weighted(2, 2)]);
        assert_eq!(changes(&loan([2, 0], &[[1, 1]])), [weighted(2, 0)]);
        assert_eq!(changes(&loan([3, 2], &[[1, 1]])), [[0; 4]; 0]);
        let made = [GROUND_29_MADE, PROVIDER, 2, 0];
        // The sovereign of an unrated bank weighs 100 here.
        assert_eq!(changes(&loan([3, 6], &[[2, 0]])), [made]);
        let unmade = |whose, class, step| [GROUND_29_UNMADE, whose, class, step];
        assert_eq!(changes(&loan([3, 2], &[[2, 2]])), [unmade(PROVIDER, 2, 2)]);
        assert_eq!(changes(&loan([1, 4], &[[3, 3]])), [unmade(PROVIDER, 3, 3)]);
        let by_counterparty = [unmade(COUNTERPARTY, 2, 0)];
        assert_eq!(changes(&loan([2, 0], &[[1, 4]])), by_counterparty);
        let order = |class, step| [ORDER, PROVIDER, class, step];
        assert_eq!(changes(&loan([3, 4], &[[2, 3], [2, 2]])), [order(2, 2)]);
        assert_eq!(changes(&loan([1, 6], &[[1, 4], [3, 3]])), [order(3, 3)]);
    }

    #[test]
    fn changes_by_haircut() {
        let mut record = loan([3, 2], &[]);
        record.terms.amount = 100_000;
        record.collateral_count = 1;
        let pledge = |goods, step, life| {
            let item = [50_000, goods, step, life, 978, 90, 90, 1, 1, 1, 0];
            Collateral::from_numbers(&item)
        };
        record.collateral[0] = pledge(4, 1, 4000);
        assert_eq!(changes(&record), [[VALUE, 4, LOWER, 0]]);
        record.collateral[0] = pledge(1, 0, 0);
        record.terms.lent_type = 6;
        record.terms.lent_issue_life = 360;
        assert_eq!(changes(&record), [[EXPOSURE, NOT_ELIGIBLE, HIGHER, 0]]);
        record.terms.lent_type = 3;
        record.terms.lent_step = 1;
        record.terms.lent_issue_life = 2000;
        assert_eq!(changes(&record), [[EXPOSURE, 3, LOWER, 0]]);
    }
}
