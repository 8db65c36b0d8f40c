//! Where the value went (02: L2): what the cut, the haircuts and the maturity step
//! take, that value and losses make up the sent amount, what is left out whole,
//! and that all else is as it was. The figures are worked out from the papers.

mod common;

use common::*;
use reference::{
    deals, printed_reports, report, Collateral, Cover, DealRead, Guarantee, Outcome, Record,
    Report, Swap, Terms, Valuation,
};
use std::collections::BTreeSet;

const ROUNDS: u64 = 20_000;
const LIMIT: u64 = 1_000_000_000_000;

/// Value and losses by haircut, maturity and cut, in the order of a report line.
type Figures = [u64; 4];

fn figures(outcome: Outcome) -> Figures {
    match outcome {
        Outcome::Valued(Valuation {
            value,
            haircut_loss,
            maturity_loss,
            cut_loss,
        }) => [value, haircut_loss, maturity_loss, cut_loss],
        Outcome::LeftOut { ground, .. } => panic!("left out on ground {ground}"),
    }
}

/// Figures of a single item of collateral.
fn pledging(terms: Terms, item: Collateral) -> Figures {
    figures(report(&deal(terms, &[item], &[])).collateral[0])
}

/// Figures of a single guarantee or swap.
fn covering(terms: Terms, item: impl Into<Cover>) -> Figures {
    figures(report(&covered(terms, &[item.into()])).guarantees[0].0)
}

fn terms_for(amount: u64) -> Terms {
    Terms { amount, ..TERMS }
}

fn cash(amount: u64) -> Collateral {
    Collateral { amount, ..CASH }
}

fn guarantee(amount: u64) -> Guarantee {
    Guarantee {
        amount,
        ..GUARANTEE
    }
}

fn swap(amount: u64) -> Swap {
    swap_for(guarantee(amount))
}

/// Collateral in another currency than the deal's.
fn foreign(item: Collateral) -> Collateral {
    Collateral {
        currency: 840,
        ..item
    }
}

/// Collateral for 900 of the deal's 1,800 days, which keep 810 / 1,710 = 9 / 19.
fn short(item: Collateral) -> Collateral {
    Collateral {
        residual: 900,
        original: 1_080,
        ..item
    }
}

fn foreign_guarantee(item: Guarantee) -> Guarantee {
    Guarantee {
        currency: 840,
        ..item
    }
}

fn short_guarantee(item: Guarantee) -> Guarantee {
    Guarantee {
        residual: 900,
        original: 1_080,
        ..item
    }
}

/// A swap in another currency and for 900 of the deal's 1,800 days.
fn foreign_short_swap(amount: u64) -> Swap {
    swap_for(foreign_guarantee(short_guarantee(guarantee(amount))))
}

#[test]
fn figures_of_cash() {
    let million = cash(1_000_000);
    assert_eq!(pledging(TERMS, million), [1_000_000, 0, 0, 0]);
    assert_eq!(pledging(TERMS, short(million)), [473_684, 0, 526_316, 0]);
    let shortest = Collateral {
        residual: 91,
        ..short(million)
    };
    assert_eq!(pledging(TERMS, shortest), [584, 0, 999_416, 0]);
    // n = 20: the currency's 8 percent are 113,138 millionths.
    assert_eq!(pledging(TERMS, foreign(million)), [886_862, 113_138, 0, 0]);
}

#[test]
fn the_haircut_takes_before_the_maturity() {
    // 886,862 × 9 / 19 = 420,092.5. The other way the maturity would take
    // 526,316 and the haircut 53,592, for the same value.
    let both = short(foreign(cash(1_000_000)));
    assert_eq!(pledging(TERMS, both), [420_092, 113_138, 466_770, 0]);
}

#[test]
fn haircuts_of_goods_and_currency_are_one_loss() {
    // A repo, n = 5: 28,285 and 56,569.
    let repo = Terms { kind: 1, ..TERMS };
    let bond = pledged([3, 1, 720, 0], 1_000_000);
    assert_eq!(pledging(repo, bond), [971_715, 28_285, 0, 0]);
    assert_eq!(pledging(repo, foreign(bond)), [915_146, 84_854, 0, 0]);
}

#[test]
fn figures_of_guarantees_and_swaps_with_the_condition() {
    // n = 10 for every kind: 8 percent. 184,000 × 9 / 19 = 87,157.9.
    for (kind, edition) in [1, 2, 3].into_iter().zip(EDITIONS) {
        let terms = Terms {
            kind,
            edition,
            ..TERMS
        };
        let own = guarantee(200_000);
        let foreign = foreign_guarantee(own);
        for (item, expected) in [
            (own, [200_000, 0, 0, 0]),
            (foreign, [184_000, 16_000, 0, 0]),
            (short_guarantee(own), [94_736, 0, 105_264, 0]),
            (short_guarantee(foreign), [87_157, 16_000, 96_843, 0]),
        ] {
            assert_eq!(covering(terms, item), expected, "{item:?}");
            assert_eq!(covering(terms, met(swap_for(item))), expected, "{item:?}");
        }
    }
}

#[test]
fn the_cut_takes_what_is_above_the_deals_amount_too() {
    for (deal, sent, value) in [
        (1_000, 999, 599), // 599.4
        (1_000, 1_000, 600),
        (1_000, 1_001, 600), // 400 and the 1 above
        (1_000, 5_000, 600), // 400 and the 4,000 above
        (1_000, LIMIT, 600),
        (999, 1_000, 599), // 599.4
        (1, LIMIT, 0),     // 0.6
        (0, 5, 0),
        (LIMIT, LIMIT, 600_000_000_000),
    ] {
        let found = covering(terms_for(deal), swap(sent));
        assert_eq!(found, [value, 0, 0, sent - value], "{deal} {sent}");
        // With the condition met nothing is cut, above the deal's amount either.
        let whole = covering(terms_for(deal), met(swap(sent)));
        assert_eq!(whole, [sent, 0, 0, 0], "{deal} {sent}");
    }
}

#[test]
fn a_swap_may_lose_by_all_three() {
    let item = foreign_short_swap(1_000_000);
    // 600,000, 552,000, then 552,000 × 9 / 19 = 261,473.7.
    let at_the_amount = [261_473, 48_000, 290_527, 400_000];
    assert_eq!(covering(TERMS, item), at_the_amount);
    // Twice the deal's amount: 300,000, 276,000, then 130,736.8.
    let above_it = [130_736, 24_000, 145_264, 700_000];
    assert_eq!(covering(terms_for(500_000), item), above_it);
    // The condition met: 920,000, then 435,789.5.
    assert_eq!(covering(TERMS, met(item)), [435_789, 80_000, 484_211, 0]);
}

#[test]
fn haircuts_of_the_whole_or_more_take_everything() {
    let lasting = |interval, edition| Terms {
        interval,
        edition,
        ..TERMS
    };
    let [shares, gold] = [8, 9].map(|goods| pledged([goods, 0, 0, 0], 1_000_000));
    for (terms, item) in [
        (lasting(141, 1), shares),        // n = 160: 250,000 × 4
        (lasting(250, 2), shares),        // 1,296,631
        (lasting(250, 3), gold),          // 1,037,305
        (lasting(250, 1), foreign(gold)), // 777,979 and 414,922
    ] {
        assert_eq!(pledging(terms, item), [0, 1_000_000, 0, 0], "{terms:?}");
        // Nothing is left for the maturity to take from.
        let short = pledging(terms, short(item));
        assert_eq!(short, [0, 1_000_000, 0, 0], "{terms:?}");
    }
    // n = 159: 996,871 leave 3,129, of which 9 / 19 are 1,482.2.
    let below = lasting(140, 1);
    assert_eq!(pledging(below, shares), [3_129, 996_871, 0, 0]);
    assert_eq!(pledging(below, short(shares)), [1_482, 996_871, 1_647, 0]);
}

#[test]
fn an_amount_of_0_is_valued_without_loss() {
    let zeros = [0; 4];
    assert_eq!(pledging(TERMS, cash(0)), zeros);
    assert_eq!(pledging(TERMS, short(foreign(cash(0)))), zeros);
    assert_eq!(pledging(TERMS, pledged([8, 0, 0, 0], 0)), zeros);
    for deal in [0, 1, LIMIT].map(terms_for) {
        let item = foreign_short_swap(0);
        assert_eq!(covering(deal, item.guarantee), zeros);
        assert_eq!(covering(deal, item), zeros);
        assert_eq!(covering(deal, met(item)), zeros);
    }
}

#[test]
fn the_largest_amounts() {
    let item = short(foreign(cash(LIMIT)));
    let expected = [420_092_526_315, 113_138_000_000, 466_769_473_685, 0];
    assert_eq!(pledging(TERMS, item), expected);

    let deal = terms_for(LIMIT);
    let item = foreign_short_swap(LIMIT);
    let uncut = [435_789_473_684, 80_000_000_000, 484_210_526_316, 0];
    assert_eq!(covering(deal, item.guarantee), uncut);
    assert_eq!(covering(deal, met(item)), uncut);
    let cut = [
        261_473_684_210,
        48_000_000_000,
        290_526_315_790,
        400_000_000_000,
    ];
    assert_eq!(covering(deal, item), cut);
}

#[test]
fn a_rounding_is_the_loss_of_its_step() {
    let day_short = Collateral {
        residual: 1_799,
        ..cash(1)
    };
    assert_eq!(pledging(TERMS, foreign(cash(1))), [0, 1, 0, 0]); // 0.887
    assert_eq!(pledging(TERMS, day_short), [0, 0, 1, 0]); // 1,709 / 1,710
    assert_eq!(pledging(TERMS, foreign(day_short)), [0, 1, 0, 0]);
    let foreign = |amount| foreign_guarantee(guarantee(amount));
    assert_eq!(covering(TERMS, foreign(1)), [0, 1, 0, 0]); // 0.92
    assert_eq!(covering(TERMS, swap(1)), [0, 0, 0, 1]); // 0.6
    assert_eq!(covering(TERMS, swap_for(foreign(1))), [0, 0, 0, 1]);
    // 1.2, then 0.92; and 6, then 5.52, then 5 × 9 / 19 = 2.4.
    assert_eq!(covering(TERMS, swap_for(foreign(2))), [0, 1, 0, 1]);
    assert_eq!(covering(TERMS, foreign_short_swap(10)), [2, 1, 3, 4]);
}

/// An item of the amount on every ground of collateral.
fn collateral_left_out(amount: u64) -> Vec<(Collateral, u8)> {
    let mut items = [short(foreign(cash(amount))); 6];
    items[0].lawful = 0;
    items[1].unrelated = 0;
    items[2].unreflected = 0;
    (items[3].goods, items[3].step, items[3].life) = (6, 1, 100);
    (items[4].residual, items[4].original) = (300, 359);
    items[5].residual = 90;
    items.into_iter().zip(21..=26).collect()
}

/// A guarantee of the amount on every ground of guarantees and swaps.
fn guarantees_left_out(amount: u64) -> Vec<(Guarantee, u8)> {
    let mut items = [foreign_short_swap(amount).guarantee; 7];
    items[0].lawful = 0;
    items[1].direct = 0;
    items[2].unreflected = 0;
    (items[3].class, items[3].step) = (3, 0);
    (items[4].residual, items[4].original) = (300, 359);
    items[5].residual = 90;
    items[6].step = 6;
    let grounds = [21, 27, 23, 28, 25, 26, 29];
    items.into_iter().zip(grounds).collect()
}

/// Amounts below, at and above that of the deal, and those at the edges.
const AMOUNTS: [u64; 7] = [0, 1, 999, 1_000, 1_001, 1_000_000, LIMIT];

#[test]
fn left_out_collateral_is_left_out_whole() {
    for amount in AMOUNTS {
        for (item, ground) in collateral_left_out(amount) {
            for edition in EDITIONS {
                let terms = Terms {
                    edition,
                    ..terms_for(1_000)
                };
                let found = report(&deal(terms, &[item], &[]));
                assert_eq!(found.collateral[0], left_out(ground, amount), "{item:?}");
                assert_eq!([found.exposure, found.rest, found.weighted], [1_000; 3]);
            }
        }
    }
}

#[test]
fn left_out_guarantees_and_swaps_are_left_out_whole() {
    for amount in AMOUNTS {
        for (item, ground) in guarantees_left_out(amount) {
            let swap = swap_for(item);
            for cover in [item.into(), swap.into(), met(swap).into()] {
                for edition in EDITIONS {
                    let terms = Terms {
                        edition,
                        ..terms_for(1_000)
                    };
                    let found = report(&covered(terms, &[cover]));
                    let expected = (left_out(ground, amount), 0);
                    assert_eq!(found.guarantees[0], expected, "{cover:?}");
                    assert_eq!([found.exposure, found.rest, found.weighted], [1_000; 3]);
                }
            }
        }
    }
}

/// A deal with sixteen items in each list, each of which loses something or is
/// left out.
fn full_deal() -> Record {
    let pledge = short(foreign(pledged([7, 0, 0, 0], 1_000)));
    let item = foreign_short_swap(1_001);
    let mut record = covered(terms_for(1_000), &[item.into(); 16]);
    record.collateral = [pledge; 16];
    record.collateral_count = 16;
    for place in 0..16 {
        record.collateral[place].lawful = u64::from(place % 5 > 0);
        if place % 3 == 0 {
            record.guarantees[place] = item.guarantee.into();
        }
        shared(&mut record.guarantees[place]).direct = u64::from(place % 7 > 0);
    }
    record
}

fn outcomes(report: &Report) -> [[Outcome; 16]; 2] {
    let covers = report.guarantees.map(|(outcome, _)| outcome);
    [report.collateral, covers]
}

#[test]
fn zeros_stand_past_the_counts() {
    let full = full_deal();
    let all = outcomes(&report(&full));
    assert!(all
        .as_flattened()
        .iter()
        .all(|outcome| *outcome != whole(0)));
    for count in 0..=16 {
        let mut record = full.clone();
        (record.collateral_count, record.guarantee_count) = (count as u64, count as u64);
        let found = report(&record);
        for (found, all) in outcomes(&found).iter().zip(&all) {
            assert_eq!(found[..count], all[..count]);
            let past = found[count..].iter();
            assert!(past.copied().map(figures).all(|figures| figures == [0; 4]));
        }
        let mut past = found.guarantees[count..].iter();
        assert!(past.all(|(_, portion)| *portion == 0));
    }
}

#[test]
fn zeros_stand_beside_40() {
    let refused = Report {
        refusal: 40,
        exposure: 0,
        collateral: [Outcome::Valued(Valuation::default()); 16],
        guarantees: [(Outcome::Valued(Valuation::default()), 0); 16],
        rest: 0,
        weighted: 0,
    };
    let mut records: [Record; 7] = std::array::from_fn(|_| full_deal());
    records[0].terms.edition = 4;
    records[1].terms.amount = LIMIT + 1;
    records[2].collateral_count = 17;
    records[3].guarantee_count = u64::MAX;
    records[4].collateral[15].lawful = 2;
    shared(&mut records[5].guarantees[15]).original = 899;
    records[6].guarantees[15] = Cover::Swap(Swap {
        restructuring: 2,
        ..SWAP
    });
    for record in records {
        assert_eq!(report(&record), refused);
    }
}

/// An item of either list.
#[derive(Clone, Copy)]
enum Item<'a> {
    Collateral(&'a Collateral),
    Cover(&'a Cover),
}

impl Item<'_> {
    fn sort(self) -> &'static str {
        match self {
            Item::Collateral(_) => "collateral",
            Item::Cover(Cover::Guarantee(_)) => "guarantee",
            Item::Cover(Cover::Swap(swap)) if swap.restructuring == 0 => "swap",
            Item::Cover(Cover::Swap(_)) => "swap with the condition",
        }
    }

    fn amount(self) -> u64 {
        match self {
            Item::Collateral(item) => item.amount,
            Item::Cover(item) => item.guarantee().amount,
        }
    }

    fn steps(self, terms: &Terms) -> Steps {
        match self {
            Item::Collateral(item) => steps_of_collateral(terms, item),
            Item::Cover(item) => steps_of_cover(terms, item),
        }
    }
}

/// Every counted item of a deal with its outcome.
fn items(record: &Record) -> Vec<(Item<'_>, Outcome)> {
    let report = report(record);
    let collateral = record.collateral.iter().map(Item::Collateral);
    let collateral = collateral.zip(report.collateral);
    let covers = record.guarantees.iter().map(Item::Cover);
    let covers = covers.zip(report.guarantees.map(|(outcome, _)| outcome));
    collateral
        .take(record.collateral_count as usize)
        .chain(covers.take(record.guarantee_count as usize))
        .collect()
}

#[test]
fn value_and_losses_or_what_is_left_out_make_up_the_sent_amount() {
    let mut random = Random::new(61);
    let mut reached = BTreeSet::new();
    for _ in 0..ROUNDS {
        let record = random.deal();
        let Terms { edition, kind, .. } = record.terms;
        for (item, outcome) in items(&record) {
            let (accounted, ground) = match outcome {
                Outcome::Valued(valuation) => (sum(valuation), 0),
                Outcome::LeftOut { ground, amount } => (amount, ground),
            };
            assert_eq!(accounted, item.amount(), "{record:?}");
            reached.insert((edition, kind, item.sort(), ground));
        }
    }
    // Valued or on one of six grounds; those of the other sorts are seven.
    assert_eq!(reached.len(), 3 * 3 * (7 + 3 * 8));
}

/// Value and losses between what the steps leave.
fn between([sent, cut, kept, value]: Steps) -> Figures {
    [value, cut - kept, kept - value, sent - cut]
}

/// Whether each step took something: haircut, maturity and cut.
fn took(outcome: Outcome) -> [bool; 3] {
    let [_, losses @ ..] = figures(outcome);
    losses.map(|loss| loss > 0)
}

/// For each of the four sorts, haircut and maturity may take something or not. The
/// cut takes from every swap without the condition, unless 0 is sent, and from
/// nothing else.
const SETS_OF_STEPS: usize = 4 * 4 + 1;

#[test]
fn each_loss_is_what_its_step_took() {
    let mut random = Random::new(62);
    let mut reached = BTreeSet::new();
    for _ in 0..ROUNDS {
        let record = random.deal();
        let Terms { edition, kind, .. } = record.terms;
        for (item, outcome) in items(&record) {
            if matches!(outcome, Outcome::Valued(_)) {
                let expected = between(item.steps(&record.terms));
                assert_eq!(figures(outcome), expected, "{record:?}");
                reached.insert((edition, kind, item.sort(), took(outcome)));
            }
        }
    }
    assert_eq!(reached.len(), 3 * 3 * SETS_OF_STEPS);
}

const BOOK: &str = "\
CRM 3
D 1000000 3 6 0 978 3 1 1800 1 0 0
C 1000000 1 0 0 840 900 1080 1 1 1 0
C 500000 6 1 100 978 1800 1800 1 1 1 0
G 200000 1 1 0 840 900 1080 1 1 1
G 300000 3 0 1 978 1800 1800 1 1 1
S 1500000 2 1 0 840 900 1080 1 1 1 0
S 700000 2 1 0 840 900 1080 1 1 1 1
S 400000 2 1 0 978 1800 1800 0 1 1 0
D 1000000 3 6 0 978 3 1 1800 1 0 0
C 1 1 0 0 978 1800 1800 1 1 1 0
S 1 1 1 0 978 1800 1800 1 1 1 2
";

#[test]
fn reports_print_the_losses_and_the_amounts_left_out() {
    // The cash is that of the figures above, the guarantee too. The swaps: 600,000
    // of 1,500,000 and then as above; 644,000 × 9 / 19 = 305,052.6. E* is 579,908;
    // 87,157 at 0, the rest at 20: 98,550.2.
    let reports = "\
REPORT 2
1 EXPOSURE 579908
1 COLLATERAL 1 VALUE 420092 113138 466770 0
1 COLLATERAL 2 GROUND 24 500000
1 GUARANTEE 1 VALUE 87157 16000 96843 0 87157
1 GUARANTEE 2 GROUND 28 300000 0
1 SWAP 3 VALUE 261473 48000 290527 900000 261473
1 SWAP 4 VALUE 305052 56000 338948 0 231278
1 SWAP 5 GROUND 21 400000 0
1 REST 0
1 WEIGHTED 98551
2 REFUSED 8 12
";
    let printed = String::from_utf8(printed_reports(&tabbed(BOOK))).expect("plain text");
    assert_eq!(printed.replace('\t', " "), reports);
}

/// A book headed 3 with collateral of every sort, guarantees and swaps of amounts
/// around the deal's, on every ground and refusal, and random deals; and the
/// reports that this crate printed for it before L2.
const RECORDED_BOOK: &str = include_str!("recorded/before_l2.book");
const RECORDED_REPORTS: &str = include_str!("recorded/before_l2.reports");

#[test]
fn answers_recorded_before_are_kept() {
    assert_recorded(RECORDED_BOOK, RECORDED_REPORTS);
}

#[test]
fn the_recorded_book_reaches_every_loss_ground_and_refusal() {
    assert!(RECORDED_BOOK.starts_with("CRM\t3\n"));
    let mut steps = BTreeSet::new();
    let mut grounds = BTreeSet::new();
    let mut refusals = BTreeSet::new();
    let read = deals(RECORDED_BOOK.as_bytes()).expect("accepted book");
    for deal in &read {
        let record = match deal {
            DealRead::Accepted(record) => record,
            DealRead::Refused { refusal, .. } => {
                refusals.insert(*refusal);
                continue;
            }
        };
        for (item, outcome) in items(record) {
            match outcome {
                Outcome::Valued(_) => steps.insert((item.sort(), took(outcome))),
                Outcome::LeftOut { ground, .. } => grounds.insert((item.sort(), ground)),
            };
        }
    }
    assert_eq!(steps.len(), SETS_OF_STEPS);
    assert_eq!(grounds.len(), 6 + 3 * 7);
    assert_eq!(refusals, BTreeSet::from([1, 2, 3, 4, 5, 6, 7, 8, 11]));
    assert_eq!(read.len(), 278);
}
