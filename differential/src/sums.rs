//! What must hold of the numbers of a report by themselves, whatever the other side
//! says: that value and losses of each item make up the amount that was sent, or all of
//! it is left out; and zeros where nothing is to be reported.

use hadlephoga::{
    Collateral, HeldGuarantee, Record, Terms, COVER_WIDTH, ITEMS, OUTCOME_WIDTH, RECORD_LENGTH,
    REPORT_LENGTH,
};

use crate::held::WITHOUT_CONDITION;

/// Goods without a haircut in the deal's currency.
const CASH: u64 = 1;

/// What was sent of a counted item, and which steps can take something of it.
struct Sent {
    amount: u64,
    has_haircut: bool,
    has_mismatch: bool,
    is_cut: bool,
}

impl Sent {
    fn collateral(terms: &Terms, item: &Collateral) -> Self {
        Sent {
            amount: item.amount,
            has_haircut: item.goods != CASH || item.currency != terms.currency,
            has_mismatch: item.residual_term < terms.residual_term,
            is_cut: false,
        }
    }

    fn guarantee(terms: &Terms, item: &HeldGuarantee) -> Self {
        Sent {
            amount: item.amount,
            has_haircut: item.currency != terms.currency,
            has_mismatch: item.residual_term < terms.residual_term,
            is_cut: item.instrument == WITHOUT_CONDITION,
        }
    }
}

/// What is wrong with a report, the first place of it; None where nothing is.
pub fn wrong(
    record: &[u64; RECORD_LENGTH],
    refusal: u64,
    report: &[u64; REPORT_LENGTH],
) -> Option<String> {
    if refusal != 0 {
        let beside = report.iter().any(|number| *number != 0);
        return beside.then(|| format!("a number beside the refusal {refusal}"));
    }
    let Record {
        terms,
        collateral_count,
        collateral,
        guarantee_count,
        guarantees,
    } = &Record::from_numbers(record);
    let (of_collateral, of_guarantees) = report[1..].split_at(ITEMS * OUTCOME_WIDTH);
    let sent = collateral.iter().map(|item| Sent::collateral(terms, item));
    let places = sent.zip(of_collateral.chunks_exact(OUTCOME_WIDTH));
    first_wrong("collateral", *collateral_count, places).or_else(|| {
        let sent = guarantees.iter().map(|item| Sent::guarantee(terms, item));
        let places = sent.zip(of_guarantees.chunks_exact(COVER_WIDTH));
        first_wrong("guarantee", *guarantee_count, places)
    })
}

fn first_wrong<'a>(
    list: &str,
    count: u64,
    places: impl Iterator<Item = (Sent, &'a [u64])>,
) -> Option<String> {
    (1..).zip(places).find_map(|(place, (sent, numbers))| {
        let wrong = match place <= count {
            true => wrong_item(&sent, numbers)?,
            false if numbers.iter().any(|number| *number != 0) => "a number past the count",
            false => return None,
        };
        Some(format!("{list} {place}: {wrong}"))
    })
}

/// Of the numbers of a counted item; the portion, if it has one, is the last.
fn wrong_item(sent: &Sent, numbers: &[u64]) -> Option<&'static str> {
    let [value, ground, haircut, maturity, cut, left_out] = *numbers.first_chunk()?;
    let portion = numbers.get(OUTCOME_WIDTH).copied().unwrap_or(0);
    let losses = [haircut, maturity, cut];
    if ground != 0 {
        let counts = [value, portion].iter().any(|number| *number != 0);
        let loses = losses.iter().any(|loss| *loss != 0);
        return match (counts, loses, left_out == sent.amount) {
            (true, ..) => Some("left out, and a value or a portion"),
            (_, true, _) => Some("left out, and a loss"),
            (.., false) => Some("left out, and not its whole amount"),
            _ => None,
        };
    }
    // Any numbers may stand there, the largest too.
    let sum: u128 = losses.map(u128::from).iter().sum::<u128>() + u128::from(value);
    [
        (left_out == 0, "valued, and something left out"),
        (
            sum == sent.amount.into(),
            "value and losses are not its amount",
        ),
        (sent.is_cut || cut == 0, "a cut where none is due"),
        (
            sent.has_haircut || haircut == 0,
            "a haircut where none is due",
        ),
        (
            sent.has_mismatch || maturity == 0,
            "a maturity loss without a mismatch",
        ),
        (portion <= value, "a portion above the value"),
    ]
    .into_iter()
    .find_map(|(holds, words)| (!holds).then_some(words))
}

#[cfg(test)]
mod tests {
    use super::*;
    use crate::held::{GUARANTEE, WITH_CONDITION};
    use crate::random::Random;
    use crate::records;
    use crate::sides::reference_report;

    /// Of both lists: the first number of the first place, and numbers of a place.
    const LISTS: [(usize, usize); 2] =
        [(1, OUTCOME_WIDTH), (1 + ITEMS * OUTCOME_WIDTH, COVER_WIDTH)];

    #[test]
    fn reports_of_both_sides_add_up() {
        let mut accepted = 0;
        for number in 0..2000 {
            let record = records::record(&mut Random::new(97, number));
            let mut report = [u64::MAX; REPORT_LENGTH];
            let refusal = hadlephoga::report_numbers(&record, &mut report);
            assert_eq!(wrong(&record, refusal, &report), None);
            let (refusal, report) = reference_report(&record);
            assert_eq!(wrong(&record, refusal, &report), None);
            accepted += usize::from(refusal == 0);
        }
        assert!(accepted > 500);
    }

    /// A loan of 1,000 for 1,800 days: two items in each list, the second left out.
    fn record() -> [u64; RECORD_LENGTH] {
        let terms = [1000, 3, 6, 0, 978, 3, 1, 1800, 1, 0, 0, 1];
        let item = |amount, currency, term, lawful| {
            Collateral::from_numbers(&[amount, 1, 0, 0, currency, term, 1800, lawful, 1, 1, 0])
        };
        let guarantee = |amount, lawful, instrument| {
            let sent = [amount, 1, 1, 0, 840, 900, 1800, lawful, 1, 1, instrument];
            HeldGuarantee::from_numbers(&sent)
        };
        Record::new(
            Terms::from_numbers(&terms),
            &[item(300, 840, 900, 1), item(200, 978, 1800, 0)],
            &[
                guarantee(1500, 1, WITHOUT_CONDITION),
                guarantee(700, 0, WITH_CONDITION),
            ],
        )
        .to_numbers()
    }

    #[test]
    fn every_number_of_an_item_is_held_to_the_rest() {
        let record = record();
        let (_, report) = reference_report(&record);
        for (first, width) in LISTS {
            // Which ground it is of what is left out, the sums do not say.
            let ground = first + width + 1;
            for place in (first..first + ITEMS * width).filter(|of| *of != ground) {
                let mut spoiled = report;
                spoiled[place] += 1;
                assert!(wrong(&record, 0, &spoiled).is_some(), "{place}");
                spoiled[place] = u64::MAX;
                assert!(wrong(&record, 0, &spoiled).is_some(), "{place}");
            }
        }
        for place in 0..REPORT_LENGTH {
            let mut beside = [0; REPORT_LENGTH];
            beside[place] = 1;
            assert!(wrong(&record, 40, &beside).is_some(), "{place}");
        }
        assert_eq!(wrong(&record, 40, &[0; REPORT_LENGTH]), None);
    }

    /// What is wrong once a loss of one unit is made another, so that the sum stays.
    fn moved(record: &[u64; RECORD_LENGTH], [from, to]: [usize; 2]) -> Option<String> {
        let (_, mut report) = reference_report(record);
        report[from] -= 1;
        report[to] += 1;
        wrong(record, 0, &report)
    }

    #[test]
    fn no_loss_stands_where_its_step_takes_nothing() {
        let [collateral, guarantee] = LISTS.map(|(first, _)| first);
        let said = |of: &str| Some(of.to_string());
        let record = record();
        let cut = moved(&record, [collateral, collateral + 4]);
        assert_eq!(cut, said("collateral 1: a cut where none is due"));
        let of_a_swap = moved(&record, [guarantee + 2, guarantee + 4]);
        assert_eq!(of_a_swap, None);
        let mut with = Record::from_numbers(&record);
        for instrument in [GUARANTEE, WITH_CONDITION] {
            with.guarantees[0].instrument = instrument;
            let cut = moved(&with.to_numbers(), [guarantee, guarantee + 4]);
            assert_eq!(cut, said("guarantee 1: a cut where none is due"));
        }
        let mut plain = Record::from_numbers(&record);
        plain.terms.currency = 840;
        plain.terms.residual_term = 900;
        for (first, of) in [(collateral, "collateral 1"), (guarantee, "guarantee 1")] {
            let [haircut, maturity] =
                [2, 3].map(|loss| moved(&plain.to_numbers(), [first, first + loss]));
            assert_eq!(haircut, Some(format!("{of}: a haircut where none is due")));
            let due = format!("{of}: a maturity loss without a mismatch");
            assert_eq!(maturity, Some(due));
        }
    }
}
