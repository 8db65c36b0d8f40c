//! The cut of swaps for which restructuring is no credit event: what could be
//! mistaken of it, each to be met where the mistake would change the item's value,
//! and where it would change the weighted amount, which is all that a book shows.

use hadlephoga::{HeldGuarantee, Outcome, Record, Report, Terms};

use crate::cells::{cell, Cell, Cells};
use crate::heading::EDITIONS;
use crate::held::{GUARANTEE, SWAPS, WITHOUT_CONDITION, WITH_CONDITION};
use crate::sides::reference_weighted_amount;
use crate::steps::Steps;
use crate::swapped::AMOUNTS;

/// What is done in place of what is due.
#[derive(Clone, Copy, PartialEq, Eq)]
enum Mistake {
    /// Of a swap without the condition.
    NoCut = 1,
    OfSwapAlone,
    OfDealAlone,
    OfExposure,
    RoundedUp,
    FiftyNine,
    SixtyOne,
    /// The percentage alone, and the smaller amount too.
    BehindCurrency,
    AllBehindCurrency,
    BehindMaturity,
    AllBehindMaturity,
    /// Of the others.
    Cut,
    /// Of all: the smaller amount without the percentage.
    HeldToDeal,
}

use Mistake::*;

const OF_CUT: &[Mistake] = &[
    NoCut,
    OfSwapAlone,
    OfDealAlone,
    OfExposure,
    RoundedUp,
    FiftyNine,
    SixtyOne,
    BehindCurrency,
    AllBehindCurrency,
    BehindMaturity,
    AllBehindMaturity,
    HeldToDeal,
];
const OF_WHOLE: &[Mistake] = &[Cut, HeldToDeal];

/// Where a mistake shows.
const VALUE: u64 = 1;
const WEIGHTED_AMOUNT: u64 = 2;

/// The swap's amount beside the deal's.
const BELOW: u64 = 1;
const EQUAL: u64 = 2;
const ABOVE: u64 = 3;

/// Whose amount it is.
const OF_SWAP: u64 = 1;
const OF_DEAL: u64 = 2;

pub struct Cuts {
    mistakes: Cells,
    sizes: Cells,
    amounts: Cells,
}

impl Cuts {
    pub fn new() -> Self {
        let instruments = [GUARANTEE, WITHOUT_CONDITION, WITH_CONDITION].into_iter();
        let mistakes = instruments.flat_map(|of| mistakes(of).iter().map(move |it| (of, *it)));
        let mistakes = mistakes.flat_map(|(of, mistake)| {
            [VALUE, WEIGHTED_AMOUNT].map(|shown| [of, mistake as u64, shown])
        });
        let sizes = SWAPS.map(|of| [BELOW, EQUAL, ABOVE].map(|size| [of, size]));
        let amounts = [OF_SWAP, OF_DEAL].map(|whose| AMOUNTS.map(|amount| [whose, amount]));
        Cuts {
            mistakes: Cells::new(
                "what shows of a cut: edition, instrument, mistake, where",
                by_edition(mistakes),
            ),
            sizes: Cells::new(
                "swaps below, at, above the deal's amount: edition, instrument, which",
                by_edition(sizes.into_iter().flatten()),
            ),
            amounts: Cells::new(
                "amounts that are cut: edition, swap's or deal's, amount",
                by_edition(amounts.into_iter().flatten()),
            ),
        }
    }

    pub fn families(&self) -> [&Cells; 3] {
        [&self.mistakes, &self.sizes, &self.amounts]
    }

    /// The report of an accepted deal.
    pub fn meet(&mut self, record: &Record, report: &Report) {
        let covers = report.guarantees.iter().enumerate();
        for (place, cover) in covers.take(record.guarantee_count as usize) {
            if let Outcome::Valued(valuation) = cover.outcome {
                self.meet_item(record, report, place, valuation.value);
            }
        }
    }

    fn meet_item(&mut self, record: &Record, report: &Report, place: usize, value: u64) {
        let (terms, item) = (&record.terms, &record.guarantees[place]);
        let (edition, instrument) = (terms.edition, item.instrument);
        let worth = Worth::new(terms, item, report.exposure);
        let mut shows = false;
        for mistake in mistakes(instrument) {
            let mistaken = worth.mistaken(*mistake);
            if mistaken == value {
                continue;
            }
            shows = true;
            let cell = |shown| [edition, instrument, *mistake as u64, shown];
            self.mistakes.meet(&cell(VALUE));
            if changes_weighted_amount(record, report, place, mistaken) {
                self.mistakes.meet(&cell(WEIGHTED_AMOUNT));
            }
        }
        if instrument != GUARANTEE {
            self.meet_size(terms, item, &worth, value);
        }
        if instrument == WITHOUT_CONDITION && shows {
            self.meet_amounts(terms, item);
        }
    }

    /// Counts which amount is the smaller one, where the other would give another value.
    fn meet_size(&mut self, terms: &Terms, item: &HeldGuarantee, worth: &Worth, value: u64) {
        let size = match item.amount.cmp(&terms.amount) {
            std::cmp::Ordering::Less => BELOW,
            std::cmp::Ordering::Equal => EQUAL,
            std::cmp::Ordering::Greater => ABOVE,
        };
        let mistake = match (item.instrument, size) {
            (WITHOUT_CONDITION, BELOW) => OfDealAlone,
            (WITHOUT_CONDITION, ABOVE) => OfSwapAlone,
            (WITHOUT_CONDITION, _) => NoCut,
            (_, ABOVE) => HeldToDeal,
            _ => Cut,
        };
        if worth.mistaken(mistake) != value {
            self.sizes.meet(&[terms.edition, item.instrument, size]);
        }
    }

    fn meet_amounts(&mut self, terms: &Terms, item: &HeldGuarantee) {
        for (whose, amount) in [(OF_SWAP, item.amount), (OF_DEAL, terms.amount)] {
            if AMOUNTS.contains(&amount) {
                self.amounts.meet(&[terms.edition, whose, amount]);
            }
        }
    }
}

fn mistakes(instrument: u64) -> &'static [Mistake] {
    match instrument {
        WITHOUT_CONDITION => OF_CUT,
        _ => OF_WHOLE,
    }
}

fn by_edition<const LENGTH: usize>(
    cells: impl IntoIterator<Item = [u64; LENGTH]>,
) -> impl Iterator<Item = Cell> {
    cells
        .into_iter()
        .flat_map(|of| EDITIONS.map(|edition| cell(&[&[edition], &of[..]].concat())))
}

fn percent(amount: u64, of_hundred: u64) -> u64 {
    amount * of_hundred / 100
}

/// What an item that is not left out is worth, if something of it is mistaken.
struct Worth {
    steps: Steps,
    exposure: u64,
}

impl Worth {
    fn new(terms: &Terms, item: &HeldGuarantee, exposure: u64) -> Self {
        let steps = Steps::of_guarantee(terms, item);
        Worth { steps, exposure }
    }

    fn mistaken(&self, mistake: Mistake) -> u64 {
        let Steps {
            sent,
            deal,
            haircut,
            maturity,
            ..
        } = self.steps;
        let least = self.steps.least();
        let after = |amount| maturity.of(haircut.of(amount));
        match mistake {
            NoCut => after(sent),
            OfSwapAlone => after(percent(sent, 60)),
            OfDealAlone => after(percent(deal, 60)),
            OfExposure => after(percent(sent.min(self.exposure), 60)),
            RoundedUp => after((least * 60).div_ceil(100)),
            FiftyNine => after(percent(least, 59)),
            SixtyOne => after(percent(least, 61)),
            BehindCurrency => maturity.of(percent(haircut.of(least), 60)),
            AllBehindCurrency => maturity.of(percent(haircut.of(sent).min(deal), 60)),
            BehindMaturity => percent(after(least), 60),
            AllBehindMaturity => percent(after(sent).min(deal), 60),
            Cut => after(percent(least, 60)),
            HeldToDeal => after(least),
        }
    }
}

/// Whether the deal's weighted amount is another one with this value of an item that
/// is valued.
fn changes_weighted_amount(record: &Record, report: &Report, place: usize, value: u64) -> bool {
    let cover = &report.guarantees[place];
    let used_up = cover.portion < cover.outcome.value() && cover.portion <= value;
    !used_up && weighted_amount_with(record, place, value) != report.weighted_amount
}

/// The item is passed as a guarantee of that amount which nothing is taken from.
fn weighted_amount_with(record: &Record, place: usize, value: u64) -> u64 {
    let mut record = record.clone();
    let item = &mut record.guarantees[place];
    item.amount = value;
    item.instrument = GUARANTEE;
    item.currency = record.terms.currency;
    item.residual_term = record.terms.residual_term;
    item.original_term = item.original_term.max(item.residual_term);
    reference_weighted_amount(&record)
}

#[cfg(test)]
mod tests {
    use super::*;
    use crate::deal::{self, deal};
    use crate::random::Random;
    use crate::swapped::tell_swaps;
    use hadlephoga::Valuation;

    #[test]
    fn every_case_is_listed() {
        let cuts = Cuts::new();
        assert_eq!(cuts.mistakes.all(), 3 * (12 + 2 + 2) * 2);
        assert_eq!(cuts.sizes.all(), 3 * 2 * 3);
        assert_eq!(cuts.amounts.all(), 3 * 2 * 4);
    }

    /// A deal of books in which swaps count, without its collateral.
    fn record(number: u64) -> Record {
        let random = &mut Random::new(79, number);
        let mut lines = deal(random, number % 3 + 1);
        tell_swaps(random, &mut lines);
        lines.retain(|line| line.letter != b'C');
        deal::record(&lines)
    }

    fn reported(record: &Record) -> Report {
        hadlephoga::report(record).expect("an accepted deal")
    }

    /// Without a mistake the value is the library's.
    #[test]
    fn values_are_those_of_the_library() {
        let mut valued = [0; 3];
        for record in (0..1000).map(record) {
            let report = reported(&record);
            for place in 0..record.guarantee_count as usize {
                let item = &record.guarantees[place];
                let worth = Worth::new(&record.terms, item, report.exposure);
                let due = match item.instrument {
                    WITHOUT_CONDITION => worth.mistaken(Cut),
                    _ => worth.mistaken(NoCut),
                };
                if let Outcome::Valued(Valuation { value, .. }) = report.guarantees[place].outcome {
                    assert_eq!(value, due, "{:?} {item:?}", record.terms);
                    valued[item.instrument as usize] += 1;
                    let weighted = weighted_amount_with(&record, place, value);
                    assert_eq!(weighted, report.weighted_amount);
                }
            }
        }
        assert!(valued.iter().all(|count| *count > 300), "{valued:?}");
    }

    #[test]
    fn every_case_is_met() {
        let mut cuts = Cuts::new();
        for number in 0..6000 {
            let mut record = record(number);
            // Some of the exposure is covered by collateral.
            if number % 2 == 0 {
                record.terms.lent_type = 1;
                record.terms.lent_step = 0;
                record.terms.lent_issue_life = 0;
                record.collateral_count = 1;
                let term = record.terms.residual_term;
                let cash = [
                    record.terms.amount / 2,
                    1,
                    0,
                    0,
                    record.terms.currency,
                    term,
                    term,
                ];
                let cash = |place| cash.get(place).copied().unwrap_or(1);
                record.collateral[0] =
                    hadlephoga::Collateral::from_numbers(&std::array::from_fn(cash));
            }
            cuts.meet(&record, &reported(&record));
        }
        for cells in cuts.families() {
            let never = Vec::from_iter(cells.never_met());
            assert!(never.is_empty(), "{}: {never:?}", cells.title);
            assert_eq!(cells.unlisted().count(), 0);
        }
    }

    /// A loan of 1,000 with one item of as much, for which another mistake shows.
    #[test]
    fn what_shows_and_what_does_not() {
        let shown = |amount: u64, instrument: u64| {
            let terms = [1000, 3, 6, 0, 978, 3, 1, 90, 1, 0, 0, 1];
            let item = [amount, 1, 1, 0, 978, 90, 90, 1, 1, 1, instrument];
            let item = HeldGuarantee::from_numbers(&item);
            let record = Record::new(Terms::from_numbers(&terms), &[], &[item]);
            let mut cuts = Cuts::new();
            cuts.meet(&record, &reported(&record));
            let met = cuts.mistakes.counts().filter(|(_, count)| *count > 0);
            Vec::from_iter(met.map(|(cell, _)| [cell[2], cell[3]]))
        };
        let both = |mistake: Mistake| [VALUE, WEIGHTED_AMOUNT].map(|of| [mistake as u64, of]);
        let without = shown(1000, WITHOUT_CONDITION);
        assert_eq!(
            without,
            [NoCut, FiftyNine, SixtyOne, HeldToDeal].map(both).concat()
        );
        let above = shown(1500, WITHOUT_CONDITION);
        assert!(above.contains(&both(OfSwapAlone)[1]));
        assert!(!above.contains(&both(OfDealAlone)[0]));
        // It covers the whole loan with and without what is above.
        let with = shown(1500, WITH_CONDITION);
        assert_eq!(
            with,
            [both(Cut).to_vec(), vec![both(HeldToDeal)[0]]].concat()
        );
        assert_eq!(shown(1000, GUARANTEE), both(Cut));
    }
}
