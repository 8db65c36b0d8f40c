//! Where the value went (02: L2): what haircut, maturity and cut took of an item, and
//! what is left out. Figures are worked out by hand; that every item adds up is tested
//! wherever a deal is reported.

use crate::sample::{left_out, valued, whole, CASH, GUARANTEE, LOAN};
use crate::sums::reported;
use hadlephoga::{
    Collateral, Cover, Ground, HeldGuarantee, Outcome, Record, Terms, Valuation,
    GUARANTEE_INSTRUMENT, ITEMS, SWAP_WITHOUT_RESTRUCTURING, SWAP_WITH_RESTRUCTURING,
};

const LIMIT: u64 = 1_000_000_000_000;
const MILLION: u64 = 1_000_000;
const CURRENCIES: [u64; 2] = [978, 840];
/// Residual and original: the loan's, shorter ones, and two that are left out.
const PERIODS: [(u64, u64); 5] = [(1800, 1800), (900, 1080), (91, 360), (90, 1080), (300, 359)];
const AMOUNTS: [u64; 9] = [0, 1, 2, 3, 99, 333_333, MILLION, 1_500_001, LIMIT];

fn cash(amount: u64, currency: u64, residual_term: u64) -> Collateral {
    Collateral {
        amount,
        currency,
        residual_term,
        ..CASH
    }
}

fn promise(instrument: u64, amount: u64, currency: u64, residual_term: u64) -> HeldGuarantee {
    HeldGuarantee {
        amount,
        currency,
        residual_term,
        instrument,
        ..GUARANTEE.into()
    }
}

fn uncut(amount: u64, currency: u64, residual_term: u64) -> HeldGuarantee {
    promise(GUARANTEE_INSTRUMENT, amount, currency, residual_term)
}

fn swap(amount: u64, currency: u64, residual_term: u64) -> HeldGuarantee {
    promise(SWAP_WITHOUT_RESTRUCTURING, amount, currency, residual_term)
}

/// What becomes of the only item of a deal.
fn pledged(terms: Terms, item: Collateral) -> Outcome {
    reported(&Record::new(terms, &[item], &[])).collateral[0]
}

fn promised(terms: Terms, item: HeldGuarantee) -> Outcome {
    let Cover { outcome, portion } = reported(&Record::new(terms, &[], &[item])).guarantees[0];
    // A sovereign at step 1 weighs 0, so that nothing stands before it.
    assert_eq!(portion, outcome.value().min(terms.amount));
    outcome
}

#[test]
fn cash_of_a_million() {
    let lost = |currency, residual_term| pledged(LOAN, cash(MILLION, currency, residual_term));
    assert_eq!(lost(978, 1800), whole(MILLION));
    assert_eq!(lost(978, 900), valued(473_684, [0, 526_316, 0]));
    assert_eq!(lost(840, 1800), valued(886_862, [113_138, 0, 0]));
    assert_eq!(lost(840, 900), valued(420_092, [113_138, 466_770, 0]));
}

/// The haircut of the goods and that of the currency are one step.
#[test]
fn goods_in_another_currency() {
    let shares = Collateral {
        goods: 7,
        ..cash(MILLION, 840, 900)
    };
    let terms = Terms { kind: 2, ..LOAN };
    // 150,000 and 80,000 millionths; 770,000 x 810 / 1,710.
    assert_eq!(
        pledged(terms, shares),
        valued(364_736, [230_000, 405_264, 0])
    );
}

#[test]
fn guarantees_and_swaps_of_a_million() {
    for instrument in [GUARANTEE_INSTRUMENT, SWAP_WITH_RESTRUCTURING] {
        let lost = |currency, residual_term| {
            promised(LOAN, promise(instrument, MILLION, currency, residual_term))
        };
        assert_eq!(lost(978, 1800), whole(MILLION));
        assert_eq!(lost(978, 900), valued(473_684, [0, 526_316, 0]));
        assert_eq!(lost(840, 1800), valued(920_000, [80_000, 0, 0]));
        assert_eq!(lost(840, 900), valued(435_789, [80_000, 484_211, 0]));
    }
    let lost = |currency, residual_term| promised(LOAN, swap(MILLION, currency, residual_term));
    assert_eq!(lost(978, 1800), valued(600_000, [0, 0, 400_000]));
    assert_eq!(lost(978, 900), valued(284_210, [0, 315_790, 400_000]));
    assert_eq!(lost(840, 1800), valued(552_000, [48_000, 0, 400_000]));
    assert_eq!(lost(840, 900), valued(261_473, [48_000, 290_527, 400_000]));
}

/// The cut takes what stands above the deal's amount, and 40 percent of the rest.
#[test]
fn a_swap_above_the_deals_amount() {
    let lost = |currency, residual_term| promised(LOAN, swap(1_500_000, currency, residual_term));
    assert_eq!(lost(978, 1800), valued(600_000, [0, 0, 900_000]));
    assert_eq!(lost(978, 900), valued(284_210, [0, 315_790, 900_000]));
    assert_eq!(lost(840, 1800), valued(552_000, [48_000, 0, 900_000]));
    assert_eq!(lost(840, 900), valued(261_473, [48_000, 290_527, 900_000]));
    let nothing = Terms { amount: 0, ..LOAN };
    let item = swap(LIMIT, 840, 900);
    assert_eq!(promised(nothing, item), valued(0, [0, 0, LIMIT]));
    let largest = Terms {
        amount: LIMIT,
        ..LOAN
    };
    // 600,000,000,000; 552,000,000,000; x 810 / 1,710.
    let losses = [48_000_000_000, 290_526_315_790, 400_000_000_000];
    assert_eq!(promised(largest, item), valued(261_473_684_210, losses));
}

/// What a step rounds away it took, and a later one finds it gone.
#[test]
fn rounding_is_a_loss_of_its_step() {
    let pledges = |amount| {
        let lost = |currency, residual| pledged(LOAN, cash(amount, currency, residual));
        [lost(978, 900), lost(840, 1800), lost(840, 900)]
    };
    let by_haircut = valued(0, [1, 0, 0]);
    assert_eq!(pledges(1), [valued(0, [0, 1, 0]), by_haircut, by_haircut]);
    let both = valued(0, [1, 1, 0]);
    assert_eq!(
        pledges(2),
        [valued(0, [0, 2, 0]), valued(1, [1, 0, 0]), both]
    );
    // 886.8 and 419.6.
    assert_eq!(pledges(1000)[2], valued(419, [114, 467, 0]));
    let swaps = |amount| promised(LOAN, swap(amount, 840, 900));
    assert_eq!(swaps(1), valued(0, [0, 0, 1]));
    // 1.2 and 0.92.
    assert_eq!(swaps(2), valued(0, [1, 0, 1]));
    // 3, 2.76 and 0.95.
    assert_eq!(swaps(5), valued(0, [1, 2, 2]));
    // 6, 5.52 and 2.4.
    assert_eq!(swaps(10), valued(2, [1, 3, 4]));
}

/// The maturity step finds nothing.
#[test]
fn a_haircut_above_the_whole() {
    let shares = Collateral {
        goods: 8,
        ..cash(MILLION, 840, 900)
    };
    let terms = Terms {
        interval: 250,
        ..LOAN
    };
    assert_eq!(pledged(terms, shares), valued(0, [MILLION, 0, 0]));
}

/// An amount of 0 is valued, and reports as a place without an item does.
#[test]
fn nothing_to_lose() {
    for (currency, residual_term) in [(978, 1800), (978, 900), (840, 1800), (840, 900)] {
        let item = cash(0, currency, residual_term);
        assert_eq!(pledged(LOAN, item), Outcome::default());
        for instrument in 0..3 {
            let item = promise(instrument, 0, currency, residual_term);
            assert_eq!(promised(LOAN, item), Outcome::default());
        }
    }
}

/// Whatever the steps would have taken of it.
#[test]
fn left_out_whole() {
    let items = [21, 22, 23, 24, 25, 26].map(|ground| {
        let mut item = cash(MILLION + ground, 840, 900);
        match ground {
            21 => item.lawful = 0,
            22 => item.unrelated = 0,
            23 => item.unreflected = 0,
            24 => (item.goods, item.step, item.issue_life) = (6, 1, 1),
            25 => (item.residual_term, item.original_term) = (300, 359),
            _ => item.residual_term = 90,
        }
        item
    });
    let report = reported(&Record::new(LOAN, &items, &[]));
    for (ground, outcome) in (21..27).zip(report.collateral) {
        assert_eq!(outcome, left_out(ground, MILLION + ground));
    }
    assert_eq!(report.exposure, MILLION);
}

#[test]
fn guarantees_and_swaps_left_out_whole() {
    const GROUNDS: [u64; 7] = [21, 27, 23, 28, 25, 26, 29];
    for instrument in 0..3 {
        let items = GROUNDS.map(|ground| {
            let mut item = promise(instrument, 3 * MILLION + ground, 840, 900);
            match ground {
                21 => item.lawful = 0,
                27 => item.direct = 0,
                23 => item.unreflected = 0,
                28 => (item.class, item.step) = (3, 0),
                25 => (item.residual_term, item.original_term) = (300, 359),
                26 => item.residual_term = 90,
                // As much as the unrated counterparty weighs.
                _ => (item.class, item.step) = (3, 3),
            }
            item
        });
        let report = reported(&Record::new(LOAN, &[], &items));
        for (ground, cover) in GROUNDS.into_iter().zip(report.guarantees) {
            assert_eq!(cover.outcome, left_out(ground, 3 * MILLION + ground));
            assert_eq!(cover.portion, 0);
        }
        assert_eq!([report.rest, report.weighted_amount], [MILLION; 2]);
    }
}

/// Goods, currencies, terms and amounts, each with each.
fn pledges() -> Vec<Collateral> {
    let goods = [
        (1, 0, 0),
        (2, 1, 720),
        (3, 3, 361),
        (5, 2, 1801),
        (6, 1, 1),
        (8, 0, 0),
    ];
    let mut items = Vec::new();
    for amount in AMOUNTS {
        for currency in CURRENCIES {
            for (residual_term, original_term) in PERIODS {
                items.extend(goods.map(|(goods, step, issue_life)| Collateral {
                    goods,
                    step,
                    issue_life,
                    original_term,
                    ..cash(amount, currency, residual_term)
                }));
            }
        }
    }
    items
}

/// Instruments, currencies, terms and amounts, each with each.
fn promises() -> Vec<HeldGuarantee> {
    let mut items = Vec::new();
    for amount in AMOUNTS {
        for currency in CURRENCIES {
            for (residual_term, original_term) in PERIODS {
                items.extend([0, 1, 2].map(|instrument| HeldGuarantee {
                    original_term,
                    ..promise(instrument, amount, currency, residual_term)
                }));
            }
        }
    }
    items
}

/// An item's numbers are the same in whichever place it stands, beside whichever
/// others, and add up in each.
#[test]
fn in_every_place() {
    let pledges = pledges();
    for edition in [1, 2, 3] {
        for (kind, interval) in [(1, 1), (2, 6), (3, 1), (3, 250)] {
            let terms = Terms {
                kind,
                interval,
                edition,
                ..LOAN
            };
            for items in pledges.chunks(ITEMS) {
                let report = reported(&Record::new(terms, items, &[]));
                for (item, outcome) in items.iter().zip(report.collateral) {
                    assert_eq!(outcome, pledged(terms, *item), "{item:?}");
                }
            }
            for items in promises().chunks(ITEMS) {
                let report = reported(&Record::new(terms, &pledges[..5], items));
                for (item, cover) in items.iter().zip(report.guarantees) {
                    assert_eq!(cover.outcome, promised(terms, *item), "{item:?}");
                }
            }
        }
    }
}

/// Each step by itself, of what the one before left: the cut of the deal's amount at
/// most, the haircut of 8 percent at ten days, the maturity.
#[test]
fn step_by_step() {
    for amount in [0, 1, 99, MILLION, LIMIT] {
        let terms = Terms { amount, ..LOAN };
        for item in promises() {
            let cut = match item.instrument {
                SWAP_WITHOUT_RESTRUCTURING => item.amount.min(amount) * 60 / 100,
                _ => item.amount,
            };
            let percent = if item.currency == 978 { 100 } else { 92 };
            let after_haircut = cut * percent / 100;
            let value = after_haircut * (item.residual_term - 90) / 1710;
            let losses = [
                cut - after_haircut,
                after_haircut - value,
                item.amount - cut,
            ];
            let due = match item.residual_term {
                90 => left_out(26, item.amount),
                300 => left_out(25, item.amount),
                _ => valued(value, losses),
            };
            assert_eq!(promised(terms, item), due, "{item:?}");
        }
    }
}

/// Losses enter no other figure: items that are worth the same without any give the
/// same E*, portions, rest and weighted amount.
#[test]
fn other_figures_come_from_values() {
    let pledges = [cash(500_000, 840, 900), cash(100_000, 978, 90)];
    let promises = [
        swap(400_000, 840, 900),
        uncut(300_000, 978, 90),
        promise(SWAP_WITH_RESTRUCTURING, 200_000, 978, 900),
    ];
    let report = reported(&Record::new(LOAN, &pledges, &promises));
    // 443,431 x 810 / 1,710.
    let lost = valued(210_046, [56_569, 233_385, 0]);
    assert_eq!(report.collateral[..2], [lost, left_out(26, 100_000)]);
    let outcomes = report.guarantees.map(|cover| cover.outcome);
    // 240,000; 220,800; x 810 / 1,710.
    let lost = valued(104_589, [19_200, 116_211, 160_000]);
    let with = valued(94_736, [0, 105_264, 0]);
    assert_eq!(outcomes[..3], [lost, left_out(26, 300_000), with]);
    let plain = [104_589, 0, 94_736].map(|value| uncut(value, 978, 1800));
    let plain = reported(&Record::new(LOAN, &[cash(210_046, 978, 1800)], &plain));
    for report in [report, plain] {
        assert_eq!([report.exposure, report.rest], [789_954, 590_629]);
        assert_eq!(report.weighted_amount, 590_629);
        let portions = report.guarantees.map(|cover| cover.portion);
        assert_eq!(portions[..3], [104_589, 0, 94_736]);
    }
}

#[test]
fn sums_of_an_outcome() {
    let outcome = valued(1, [20, 300, 4000]);
    let sums = |outcome: Outcome| [outcome.value(), outcome.losses(), outcome.left_out()];
    assert_eq!(sums(outcome), [1, 4320, 0]);
    assert_eq!(outcome.amount(), 4321);
    let outcome = Outcome::LeftOut {
        ground: Ground(21),
        amount: 5,
    };
    assert_eq!(sums(outcome), [0, 0, 5]);
    assert_eq!(outcome.amount(), 5);
    assert_eq!(sums(Outcome::default()), [0; 3]);
    assert_eq!(Outcome::default().amount(), 0);
    // Numbers that are no report's do not overflow.
    let largest = valued(u64::MAX, [u64::MAX; 3]);
    assert_eq!(sums(largest), [u64::MAX, u64::MAX, 0]);
    assert_eq!(largest.amount(), u64::MAX);
    assert_eq!(Outcome::Valued(Valuation::default()), Outcome::default());
}
