//! Both implementations behind the same calls on the same numbers.

use hadlephoga::{
    BookReply, Collateral, HeldGuarantee, NettingReply, Record, RepairReply, Terms, OUTCOME_WIDTH,
    RECORD_LENGTH, REPORT_LENGTH,
};
use reference::{Cover, Outcome, Valuation};

use crate::held::{GUARANTEE, WITHOUT_CONDITION};
use crate::set;

#[derive(Clone, Copy, Debug, PartialEq, Eq)]
pub enum Side {
    Proved,
    Reference,
}

pub const SIDES: [Side; 2] = [Side::Proved, Side::Reference];

impl Side {
    pub fn name(self) -> &'static str {
        match self {
            Side::Proved => "proved",
            Side::Reference => "reference",
        }
    }

    pub fn answer_book(self, book: &[u8], results: &mut [u64]) -> BookReply {
        match self {
            Side::Proved => hadlephoga::answer_book_numbers(book, results),
            Side::Reference => {
                let reference::BookReply { refusal, deals } = reference::answer_book(book, results);
                let deals = deals as u64;
                BookReply { refusal, deals }
            }
        }
    }

    pub fn repair_book(self, book: &[u8], repaired: &mut [u8], altered: &mut [u64]) -> RepairReply {
        match self {
            Side::Proved => hadlephoga::repair_book_numbers(book, repaired, altered),
            Side::Reference => {
                let reply = reference::repair_book(book, repaired, altered);
                RepairReply {
                    refusal: reply.refusal,
                    bytes: reply.bytes as u64,
                    lines: reply.lines as u64,
                }
            }
        }
    }

    /// The refusal or 0, and the report.
    pub fn report(self, record: &[u64; RECORD_LENGTH]) -> (u64, [u64; REPORT_LENGTH]) {
        match self {
            Side::Proved => {
                let mut report = [0; REPORT_LENGTH];
                (hadlephoga::report_numbers(record, &mut report), report)
            }
            Side::Reference => reference_report(record),
        }
    }

    /// Numbers that are no set are refused with 11.
    pub fn net_set(self, set: &[u64]) -> NettingReply {
        match self {
            Side::Proved => hadlephoga::net_set_numbers(set),
            Side::Reference => {
                let no_set = reference::NettingReply {
                    refusal: 11,
                    ..Default::default()
                };
                let set = set::from_numbers(set);
                let reply = set.map_or(no_set, |set| reference::net_set(&set));
                NettingReply {
                    refusal: reply.refusal,
                    exposure: reply.exposure,
                    rwa: reply.weighted,
                }
            }
        }
    }
}

/// The refusal or 0, and the report, of the second implementation.
pub fn reference_report(record: &[u64; RECORD_LENGTH]) -> (u64, [u64; REPORT_LENGTH]) {
    let report = reference::report(&to_reference(&Record::from_numbers(record)));
    let collateral = report.collateral.into_iter().flat_map(outcome_numbers);
    let guarantees = report.guarantees.into_iter();
    let guarantees = guarantees
        .flat_map(|(outcome, portion)| outcome_numbers(outcome).into_iter().chain([portion]));
    let values = ([report.exposure].into_iter())
        .chain(collateral)
        .chain(guarantees)
        .chain([report.rest, report.weighted]);
    let mut numbers = [0; REPORT_LENGTH];
    for (number, value) in numbers.iter_mut().zip(values) {
        *number = value;
    }
    (report.refusal, numbers)
}

/// The weighted amount of an accepted deal, by the second implementation.
pub fn reference_weighted_amount(record: &Record) -> u64 {
    reference::report(&to_reference(record)).weighted
}

/// As a report of the library has them: value, ground, the losses by haircut, by
/// maturity and by cut, and the amount left out.
fn outcome_numbers(outcome: Outcome) -> [u64; OUTCOME_WIDTH] {
    match outcome {
        Outcome::Valued(Valuation {
            value,
            haircut_loss,
            maturity_loss,
            cut_loss,
        }) => [value, 0, haircut_loss, maturity_loss, cut_loss, 0],
        Outcome::LeftOut { ground, amount } => [0, ground.into(), 0, 0, 0, amount],
    }
}

/// Opening by the second implementation, on lists of any length; zeros where it
/// gives no deal.
pub fn reference_open(terms: &[u64], record: &mut [u64]) -> u64 {
    let Some(numbers) = record.first_chunk_mut::<RECORD_LENGTH>() else {
        return 13;
    };
    *numbers = [0; RECORD_LENGTH];
    let Ok(terms) = <[u64; Terms::LENGTH]>::try_from(terms) else {
        return 11;
    };
    match reference::open(terms.into()) {
        Ok(opened) => {
            *numbers = from_reference(&opened).to_numbers();
            0
        }
        Err(refusal) => refusal,
    }
}

/// Adding by the second implementation, on lists of any length; the record is
/// what it leaves, refused or not.
pub fn reference_add<const WIDTH: usize, Item: From<[u64; WIDTH]>>(
    add: fn(&mut reference::Record, Item) -> u64,
    record: &mut [u64],
    item: &[u64],
) -> u64 {
    let Ok(item) = <[u64; WIDTH]>::try_from(item) else {
        return 11;
    };
    let Ok(numbers) = <&mut [u64; RECORD_LENGTH]>::try_from(record) else {
        return 40;
    };
    let mut record = to_reference(&Record::from_numbers(numbers));
    let refusal = add(&mut record, item.into());
    *numbers = from_reference(&record).to_numbers();
    refusal
}

/// What opening answers to a line's fields, or adding to a deal without items,
/// by the second implementation.
pub fn reference_refusal(letter: u8, fields: &[u64]) -> u64 {
    // A sovereign is lent no amount for a day.
    const TERMS: [u64; Terms::LENGTH] = [0, 1, 0, 0, 1, 1, 1, 1, 1, 0, 0, 1];
    let mut record = [0; RECORD_LENGTH];
    if letter == b'D' {
        return reference_open(fields, &mut record);
    }
    reference_open(&TERMS, &mut record);
    match letter {
        b'C' => reference_add(reference::add_collateral, &mut record, fields),
        b'S' => reference_add(reference::add_swap, &mut record, fields),
        _ => reference_add(reference::add_guarantee, &mut record, fields),
    }
}

fn to_reference(record: &Record) -> reference::Record {
    reference::Record {
        terms: terms_to_reference(&record.terms),
        collateral_count: record.collateral_count,
        collateral: record.collateral.map(collateral_to_reference),
        guarantee_count: record.guarantee_count,
        guarantees: record.guarantees.map(guarantee_to_reference),
    }
}

fn terms_to_reference(terms: &Terms) -> reference::Terms {
    reference::Terms {
        amount: terms.amount,
        class: terms.class,
        step: terms.step,
        sovereign_step: terms.sovereign_step,
        currency: terms.currency,
        kind: terms.kind,
        interval: terms.interval,
        residual: terms.residual_term,
        lent_goods: terms.lent_type,
        lent_step: terms.lent_step,
        lent_life: terms.lent_issue_life,
        edition: terms.edition,
    }
}

fn collateral_to_reference(item: Collateral) -> reference::Collateral {
    reference::Collateral {
        amount: item.amount,
        goods: item.goods,
        step: item.step,
        life: item.issue_life,
        currency: item.currency,
        residual: item.residual_term,
        original: item.original_term,
        lawful: item.lawful,
        unrelated: item.unrelated,
        unreflected: item.unreflected,
        listed: item.listed,
    }
}

/// An unknown instrument is a swap's whose condition is wrong: either is refused.
fn guarantee_to_reference(item: HeldGuarantee) -> Cover {
    let guarantee = reference::Guarantee {
        amount: item.amount,
        class: item.class,
        step: item.step,
        sovereign_step: item.sovereign_step,
        currency: item.currency,
        residual: item.residual_term,
        original: item.original_term,
        lawful: item.lawful,
        direct: item.direct,
        unreflected: item.unreflected,
    };
    match item.instrument {
        GUARANTEE => guarantee.into(),
        instrument => Cover::Swap(reference::Swap {
            guarantee,
            restructuring: instrument - WITHOUT_CONDITION,
        }),
    }
}

/// A record that the second implementation read from a book.
pub fn from_reference(record: &reference::Record) -> Record {
    Record {
        terms: terms_from_reference(&record.terms),
        collateral_count: record.collateral_count,
        collateral: record.collateral.map(collateral_from_reference),
        guarantee_count: record.guarantee_count,
        guarantees: record.guarantees.map(guarantee_from_reference),
    }
}

fn terms_from_reference(terms: &reference::Terms) -> Terms {
    Terms {
        amount: terms.amount,
        class: terms.class,
        step: terms.step,
        sovereign_step: terms.sovereign_step,
        currency: terms.currency,
        kind: terms.kind,
        interval: terms.interval,
        residual_term: terms.residual,
        lent_type: terms.lent_goods,
        lent_step: terms.lent_step,
        lent_issue_life: terms.lent_life,
        edition: terms.edition,
    }
}

fn collateral_from_reference(item: reference::Collateral) -> Collateral {
    Collateral {
        amount: item.amount,
        goods: item.goods,
        step: item.step,
        issue_life: item.life,
        currency: item.currency,
        residual_term: item.residual,
        original_term: item.original,
        lawful: item.lawful,
        unrelated: item.unrelated,
        unreflected: item.unreflected,
        listed: item.listed,
    }
}

fn guarantee_from_reference(cover: Cover) -> HeldGuarantee {
    let item = cover.guarantee();
    let instrument = match cover {
        Cover::Guarantee(_) => GUARANTEE,
        Cover::Swap(swap) => WITHOUT_CONDITION + swap.restructuring,
    };
    HeldGuarantee {
        amount: item.amount,
        class: item.class,
        step: item.step,
        sovereign_step: item.sovereign_step,
        currency: item.currency,
        residual_term: item.residual,
        original_term: item.original,
        lawful: item.lawful,
        direct: item.direct,
        unreflected: item.unreflected,
        instrument,
    }
}

#[cfg(test)]
mod tests {
    use super::*;

    #[test]
    fn a_record_is_the_same_on_both_sides() {
        let record = Record::from_numbers(&std::array::from_fn(|place| place as u64));
        assert_eq!(from_reference(&to_reference(&record)), record);
        for instrument in [0, 1, 2, 3, u64::MAX] {
            let mut record = Record::default();
            record.guarantees[15].instrument = instrument;
            assert_eq!(from_reference(&to_reference(&record)), record);
        }
    }
}
