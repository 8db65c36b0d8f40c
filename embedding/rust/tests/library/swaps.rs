//! Credit default swaps (02: L1): built and read back, refused, and valued with and
//! without restructuring as a credit event. Figures are worked out by hand.

use std::slice;

use crate::lines::{guarantee_line, headed, swap_line, terms_line};
use crate::sample::{held, left_out, valued, whole, CASH, GUARANTEE, LOAN};
use crate::sums::reported;
use hadlephoga::{
    add_collateral, add_guarantee, add_guarantee_numbers, add_swap, add_swap_numbers, answer_book,
    open, report, Collateral, Cover, Guarantee, HeldGuarantee, Outcome, Record, Refusal, Swap,
    Terms, Valuation, GUARANTEE_INSTRUMENT, ITEMS, SWAP_WITHOUT_RESTRUCTURING,
    SWAP_WITH_RESTRUCTURING,
};

const LIMIT: u64 = 1_000_000_000_000;
/// Entries that are no condition, and instruments that there are not. Cut to 8 or to
/// 32 bits most of them would be.
const NO_ENTRY: [u64; 6] = [2, 3, 256, 257, 1 << 32, u64::MAX];
const NO_INSTRUMENT: [u64; 7] = [3, 4, 256, 257, 258, (1 << 32) + 1, u64::MAX];

/// What a guarantee is, with this entry of the further condition.
fn as_swap(item: Guarantee, restructuring: u64) -> Swap {
    let mut numbers = [restructuring; Swap::LENGTH];
    numbers[..Guarantee::LENGTH].copy_from_slice(&item.to_numbers());
    Swap::from_numbers(&numbers)
}

fn of(amount: u64) -> Guarantee {
    Guarantee {
        amount,
        ..GUARANTEE
    }
}

/// A deal that the library opens and to which it adds.
fn built(terms: Terms, collateral: &[Collateral], swaps: &[Swap]) -> Record {
    let mut record = open(&terms).expect("accepted terms");
    for item in collateral {
        add_collateral(&mut record, item).expect("a free place");
    }
    for item in swaps {
        add_swap(&mut record, item).expect("a free place");
    }
    record
}

/// What becomes of the only swap of a deal.
fn outcome(terms: Terms, item: Swap) -> Outcome {
    reported(&built(terms, &[], &[item])).guarantees[0].outcome
}

#[test]
fn instruments() {
    let instrument = |restructuring| {
        let item = as_swap(GUARANTEE, restructuring);
        HeldGuarantee::from(item).instrument
    };
    assert_eq!([0, 1].map(instrument), [1, 2]);
    assert_eq!(NO_ENTRY.map(instrument), [3; NO_ENTRY.len()]);
    assert_eq!(HeldGuarantee::from(GUARANTEE).instrument, 0);
    assert_eq!(GUARANTEE_INSTRUMENT, 0);
    assert_eq!(SWAP_WITHOUT_RESTRUCTURING, 1);
    assert_eq!(SWAP_WITH_RESTRUCTURING, 2);
}

/// The ten numbers of a guarantee from its amount to its terms, no two that could
/// be exchanged alike, and its conditions.
const SENT: [u64; 10] = [7, 2, 3, 5, 840, 900, 1080, 1, 1, 1];

/// In one order of adding with guarantees.
#[test]
fn built_and_read_back() {
    let guarantee = Guarantee::from_numbers(&SENT);
    let unlawful = Guarantee {
        lawful: 0,
        ..guarantee
    };
    let indirect = Guarantee {
        direct: 0,
        ..guarantee
    };
    let mut record = open(&LOAN).expect("accepted terms");
    assert_eq!(add_swap(&mut record, &as_swap(unlawful, 0)), Ok(()));
    assert_eq!(add_guarantee(&mut record, &guarantee), Ok(()));
    assert_eq!(add_swap(&mut record, &as_swap(indirect, 1)), Ok(()));
    let instrument = |instrument, item| HeldGuarantee {
        instrument,
        ..HeldGuarantee::from(item)
    };
    let items = [
        instrument(1, unlawful),
        instrument(0, guarantee),
        instrument(2, indirect),
    ];
    assert_eq!(record, Record::new(LOAN, &[], &items));
    let numbers = &record.to_numbers()[189..];
    assert_eq!(numbers[..8], [3, 7, 2, 3, 5, 840, 900, 1080]);
    assert_eq!(numbers[8..12], [0, 1, 1, 1]);
    assert_eq!(numbers[12..22], SENT);
    assert_eq!(numbers[22..30], [0, 7, 2, 3, 5, 840, 900, 1080]);
    assert_eq!(numbers[30..34], [1, 0, 1, 2]);
    assert_eq!(numbers[34..], [0; 143]);
}

/// What adding refuses, a number for each; the numbers are in order of testing.
fn refused_swaps() -> Vec<(u64, Swap)> {
    let swap = as_swap(GUARANTEE, 0);
    let mut items = [1, 2, 3, 3, 4, 4, 5, 5, 7, 8, 8, 8].map(|number| (number, swap));
    items[0].1.amount = LIMIT + 1;
    items[1].1.class = 4;
    items[2].1.step = 7;
    items[3].1.sovereign_step = 1;
    items[4].1.currency = 0;
    items[5].1.currency = 1000;
    items[6].1.residual_term = 0;
    items[7].1.original_term = 100_001;
    items[8].1.residual_term = GUARANTEE.original_term + 1;
    items[9].1.lawful = 2;
    items[10].1.direct = 2;
    items[11].1.unreflected = 2;
    let conditions = NO_ENTRY.map(|restructuring| (8, as_swap(GUARANTEE, restructuring)));
    [&items[..], &conditions].concat()
}

#[test]
fn refused_with_the_record_unchanged() {
    let before = built(LOAN, &[CASH], &[as_swap(GUARANTEE, 1)]);
    let mut record = before.clone();
    for (number, item) in refused_swaps() {
        let refusal = add_swap(&mut record, &item);
        assert_eq!(refusal, Err(Refusal(number)), "{item:?}");
        assert_eq!(record, before);
        // In a record it is 40.
        let mut wrong = Record::new(LOAN, &[], &held(&[item]));
        assert_eq!(report(&wrong), Err(Refusal(40)), "{item:?}");
        let refusal = add_swap(&mut wrong, &as_swap(GUARANTEE, 0));
        assert_eq!(refusal, Err(Refusal(40)));
        assert_eq!(wrong, Record::new(LOAN, &[], &held(&[item])));
    }
}

/// A swap that has one fault more each time is refused by the earlier number.
#[test]
fn order_of_refusals() {
    let mut record = open(&LOAN).expect("accepted terms");
    let mut item = as_swap(GUARANTEE, 2);
    let mut refused = |item: &Swap, number| {
        assert_eq!(
            add_swap(&mut record, item),
            Err(Refusal(number)),
            "{item:?}"
        );
    };
    refused(&item, 8);
    item.residual_term = 1801;
    refused(&item, 7);
    item.original_term = 0;
    refused(&item, 5);
    item.currency = 0;
    refused(&item, 4);
    item.sovereign_step = 7;
    refused(&item, 3);
    item.class = 0;
    refused(&item, 2);
    item.amount = u64::MAX;
    refused(&item, 1);
    let mut full = Record::new(LOAN, &[], &held(&[GUARANTEE; ITEMS]));
    assert_eq!(add_swap(&mut full, &item), Err(Refusal(6)));
    full.guarantees[3].instrument = 3;
    assert_eq!(add_swap(&mut full, &item), Err(Refusal(40)));
    let mut full = full.to_numbers();
    assert_eq!(add_swap_numbers(&mut full, &item.to_numbers()[..10]), 11);
}

/// Eleven numbers, no more and no fewer; a guarantee's ten as before.
#[test]
fn lists_of_other_lengths() {
    let before = built(LOAN, &[CASH], &[as_swap(GUARANTEE, 0)]).to_numbers();
    let item = [as_swap(GUARANTEE, 1).to_numbers(), [1; 11]].concat();
    let mut record = before;
    for length in (0..=item.len()).filter(|length| *length != 11) {
        assert_eq!(add_swap_numbers(&mut record, &item[..length]), 11);
    }
    for length in (0..=item.len()).filter(|length| *length != 10) {
        assert_eq!(add_guarantee_numbers(&mut record, &item[..length]), 11);
    }
    assert_eq!(record, before);
    let mut longer = [&before[..], &[0]].concat();
    let shorter = longer.len() - 2;
    assert_eq!(add_swap_numbers(&mut longer[..shorter], &item[..11]), 40);
    assert_eq!(add_swap_numbers(&mut longer, &item[..11]), 40);
    assert_eq!(add_swap_numbers(&mut [], &item[..11]), 40);
    assert_eq!(longer, [&before[..], &[0]].concat());
    assert_eq!(add_swap_numbers(&mut record, &item[..11]), 0);
    assert_eq!(record[189], 2);
}

/// Sixteen places for guarantees and swaps together, however they are mixed.
#[test]
fn the_seventeenth_of_both() {
    let swap = as_swap(GUARANTEE, 0);
    for guarantees in 0..=ITEMS {
        let mut record = open(&LOAN).expect("accepted terms");
        let mut due = Vec::new();
        for place in 0..ITEMS {
            // 5 and 16 have no common divisor: every place is met once.
            if place * 5 % ITEMS < guarantees {
                assert_eq!(add_guarantee(&mut record, &GUARANTEE), Ok(()));
                due.push(GUARANTEE.into());
            } else {
                assert_eq!(add_swap(&mut record, &swap), Ok(()));
                due.push(swap.into());
            }
        }
        let full = Record::new(LOAN, &[], &due);
        assert_eq!(record, full);
        assert_eq!(add_guarantee(&mut record, &GUARANTEE), Err(Refusal(6)));
        assert_eq!(add_swap(&mut record, &swap), Err(Refusal(6)));
        assert_eq!(record, full);
        assert_eq!(reported(&record).exposure, 1_000_000);
        // Collateral has places of its own.
        assert_eq!(add_collateral(&mut record, &CASH), Ok(()));
    }
}

#[test]
fn no_such_instrument() {
    let swaps = [as_swap(GUARANTEE, 0); ITEMS];
    for instrument in NO_INSTRUMENT {
        for place in 0..ITEMS {
            let mut wrong = Record::new(LOAN, &[], &held(&swaps));
            wrong.guarantees[place].instrument = instrument;
            assert_eq!(report(&wrong), Err(Refusal(40)), "{instrument} in {place}");
            let mut after = wrong.clone();
            assert_eq!(add_collateral(&mut after, &CASH), Err(Refusal(40)));
            assert_eq!(add_guarantee(&mut after, &GUARANTEE), Err(Refusal(40)));
            assert_eq!(add_swap(&mut after, &swaps[0]), Err(Refusal(40)));
            assert_eq!(after, wrong);
        }
    }
}

/// Past the count it has no effect, until an item is added there.
#[test]
fn no_such_instrument_past_the_count() {
    let clean = built(LOAN, &[], &[as_swap(GUARANTEE, 0)]);
    for instrument in NO_INSTRUMENT {
        let mut record = clean.clone();
        for place in &mut record.guarantees[1..] {
            place.instrument = instrument;
        }
        assert_eq!(reported(&record), reported(&clean));
        assert_eq!(add_swap(&mut record, &as_swap(GUARANTEE, 1)), Ok(()));
        assert_eq!(add_guarantee(&mut record, &GUARANTEE), Ok(()));
        let instruments = record.guarantees.map(|item| item.instrument);
        assert_eq!(instruments[..3], [1, 2, 0]);
        assert_eq!(instruments[3..], [instrument; 13]);
    }
}

/// Swap's amount, deal's amount, and 60 percent of the smaller, rounded down.
const CUTS: [(u64, u64, u64); 20] = [
    (0, 1_000_000, 0),
    (1, 1_000_000, 0),
    (2, 1_000_000, 1),
    (3, 1_000_000, 1),
    (4, 1_000_000, 2),
    (5, 1_000_000, 3),
    (999_998, 1_000_000, 599_998),
    (999_999, 1_000_000, 599_999),
    (1_000_000, 1_000_000, 600_000),
    (1_000_001, 1_000_000, 600_000),
    (1_000_002, 1_000_000, 600_000),
    (LIMIT, 1_000_000, 600_000),
    (LIMIT, LIMIT, 600_000_000_000),
    (LIMIT - 1, LIMIT, 599_999_999_999),
    (LIMIT, LIMIT - 1, 599_999_999_999),
    (LIMIT, LIMIT - 2, 599_999_999_998),
    (LIMIT, 0, 0),
    (LIMIT, 1, 0),
    (LIMIT, 2, 1),
    (0, 0, 0),
];

#[test]
fn cut_by_the_deals_amount() {
    for edition in [1, 2, 3] {
        for (amount, deal, due) in CUTS {
            let terms = Terms {
                amount: deal,
                edition,
                ..LOAN
            };
            let swaps = [0, 1].map(|entry| as_swap(of(amount), entry));
            // The cut takes what stands above the deal's amount too.
            let cut = valued(due, [0, 0, amount - due]);
            assert_eq!(outcome(terms, swaps[0]), cut, "{amount} {deal}");
            // With the condition the whole amount counts, above the deal's too.
            assert_eq!(outcome(terms, swaps[1]), whole(amount), "{amount} {deal}");
            // A sovereign at step 1 weighs 0, the unrated corporate 100.
            let report = reported(&built(terms, &[], &swaps[..1]));
            assert_eq!(report.guarantees[0].portion, due);
            assert_eq!([report.rest, report.weighted_amount], [deal - due; 2]);
            let report = reported(&built(terms, &[], &swaps[1..]));
            assert_eq!(report.guarantees[0].portion, amount.min(deal));
            let rest = deal.saturating_sub(amount);
            assert_eq!([report.rest, report.weighted_amount], [rest; 2]);
        }
    }
}

/// The deal's amount is what was sent, whatever collateral leaves of it and whatever
/// lent goods raise it to.
#[test]
fn the_cut_does_not_look_at_the_exposure() {
    let amount = 900_000;
    let cash = Collateral { amount, ..CASH };
    let report = reported(&built(LOAN, &[cash], &[as_swap(of(500_000), 0)]));
    assert_eq!(report.exposure, 100_000);
    let cover = |value, cut_loss, portion| Cover {
        outcome: valued(value, [0, 0, cut_loss]),
        portion,
    };
    assert_eq!(report.guarantees[0], cover(300_000, 200_000, 100_000));
    // Equity is raised by 25%, at a holding period of ten days.
    let repo = Terms {
        kind: 1,
        interval: 6,
        lent_type: 8,
        ..LOAN
    };
    let amount = 250_000;
    let cash = Collateral { amount, ..CASH };
    let report = reported(&built(repo, &[cash], &[as_swap(of(1_200_000), 0)]));
    assert_eq!(report.exposure, 1_000_000);
    assert_eq!(report.guarantees[0], cover(600_000, 600_000, 600_000));
}

/// The cut comes first, then the haircut of 8% for another currency, then the
/// maturity's 810 / 1,710; each is rounded down, and each loses what it takes.
#[test]
fn currency_and_maturity_follow() {
    let dollars = |amount| Guarantee {
        currency: 840,
        ..of(amount)
    };
    let short = |item| Guarantee {
        residual_term: 900,
        original_term: 1080,
        ..item
    };
    let lost = |item, without: (u64, [u64; 3]), with: (u64, [u64; 2])| {
        let due = valued(without.0, without.1);
        assert_eq!(outcome(LOAN, as_swap(item, 0)), due, "{item:?}");
        let (value, [haircut, maturity]) = with;
        let due = valued(value, [haircut, maturity, 0]);
        assert_eq!(outcome(LOAN, as_swap(item, 1)), due, "{item:?}");
    };
    let item = dollars(200_000);
    lost(item, (110_400, [9_600, 0, 80_000]), (184_000, [16_000, 0]));
    let without = (52_294, [9_600, 58_106, 80_000]);
    lost(short(item), without, (87_157, [16_000, 96_843]));
    let item = short(of(200_000));
    lost(item, (56_842, [0, 63_158, 80_000]), (94_736, [0, 105_264]));
    // 600,000 less 8%, and not 60% of 1,050,000 less 8%.
    let without = (552_000, [48_000, 0, 450_000]);
    lost(dollars(1_050_000), without, (966_000, [84_000, 0]));
    let without = (284_210, [0, 315_790, 900_000]);
    lost(short(of(1_500_000)), without, (710_526, [0, 789_474]));
    // 20 becomes 12, 11, 5; in every other order of the three it would be 4. 128
    // becomes 76, 69, 32; in every other order 33.
    lost(short(dollars(20)), (5, [1, 6, 8]), (8, [2, 10]));
    lost(short(dollars(128)), (32, [7, 37, 52]), (55, [11, 62]));
}

/// Items of which some are left out, in other currencies, short, or large.
fn varied() -> Vec<Guarantee> {
    let mut items = vec![GUARANTEE; 12];
    items[1].lawful = 0;
    items[2].direct = 0;
    items[3].unreflected = 0;
    (items[4].class, items[4].step) = (3, 0);
    (items[5].residual_term, items[5].original_term) = (300, 359);
    (items[6].residual_term, items[6].original_term) = (90, 400);
    (items[7].class, items[7].step) = (3, 3);
    (items[8].class, items[8].currency) = (2, 840);
    (items[9].residual_term, items[9].amount) = (900, 333_333);
    items[10].amount = 3_000_000;
    (items[11].class, items[11].step) = (2, 2);
    items
}

#[test]
fn grounds() {
    let due = [0, 21, 27, 23, 28, 25, 26, 29, 0, 0, 0, 0];
    for entry in [0, 1] {
        for (item, ground) in varied().into_iter().zip(due) {
            let record = built(LOAN, &[], &[as_swap(item, entry)]);
            let Cover { outcome, portion } = reported(&record).guarantees[0];
            match ground {
                0 => assert_ne!(outcome.value(), 0, "{item:?}"),
                ground => assert_eq!(outcome, left_out(ground, item.amount), "{item:?}"),
            }
            assert_eq!(portion == 0, ground != 0);
        }
    }
}

/// What a guarantee of the amount that the cut leaves reports, once the cut is counted.
fn before_the_cut(outcome: Outcome, cut_loss: u64) -> Outcome {
    match outcome {
        Outcome::Valued(valuation) => Outcome::Valued(Valuation {
            cut_loss,
            ..valuation
        }),
        Outcome::LeftOut { ground, amount } => left_out(ground.0, amount + cut_loss),
    }
}

/// With the condition a swap reports as the guarantee does, without it as the
/// guarantee of the amount that is left; in every place of a mixed list.
#[test]
fn reports_as_guarantees() {
    let items = varied();
    for amount in [0, 999, 1_000_000, 5_000_000] {
        let terms = Terms { amount, ..LOAN };
        for shift in 0..3 {
            let entry = |place: usize| (place + shift) % 3;
            let mixed = items.iter().enumerate().map(|(place, item)| {
                let instrument = entry(place) as u64;
                HeldGuarantee {
                    instrument,
                    ..(*item).into()
                }
            });
            let left = |place: usize, item: &Guarantee| match entry(place) {
                1 => item.amount.min(amount) * 60 / 100,
                _ => item.amount,
            };
            let plain = items.iter().enumerate().map(|(place, item)| {
                let amount = left(place, item);
                Guarantee { amount, ..*item }.into()
            });
            let [mixed, mut plain] = [mixed.collect(), plain.collect()]
                .map(|items: Vec<_>| reported(&Record::new(terms, &[], &items)));
            for (place, item) in items.iter().enumerate() {
                let outcome = &mut plain.guarantees[place].outcome;
                *outcome = before_the_cut(*outcome, item.amount - left(place, item));
            }
            assert_eq!(mixed, plain);
        }
    }
}

/// Swaps and guarantees in one order of weight, and in order of adding where they
/// weigh the same.
#[test]
fn cover_in_a_single_order() {
    let terms = Terms {
        amount: 1000,
        ..LOAN
    };
    let bank = |amount| Guarantee {
        class: 2,
        ..of(amount)
    };
    let mut record = open(&terms).expect("accepted terms");
    add_swap(&mut record, &as_swap(bank(500), 0)).expect("a free place");
    add_guarantee(&mut record, &bank(500)).expect("a free place");
    add_swap(&mut record, &as_swap(of(500), 0)).expect("a free place");
    add_guarantee(&mut record, &of(100)).expect("a free place");
    add_swap(&mut record, &as_swap(bank(500), 1)).expect("a free place");
    let report = reported(&record);
    let portions = report.guarantees.map(|cover| cover.portion);
    // At 0: 300 and 100; at 20: 300, and 300 that are left of 500.
    assert_eq!(portions[..5], [300, 300, 300, 100, 0]);
    assert_eq!(report.guarantees[4].outcome, whole(500));
    assert_eq!([report.rest, report.weighted_amount], [0, 120]);
}

/// A record may be changed after adding: 0, 1 and 2 are each reported as if the item
/// had been added so.
#[test]
fn changed_after_adding() {
    let mut record = built(LOAN, &[], &[as_swap(GUARANTEE, 1)]);
    for (instrument, rest) in [(2, 800_000), (1, 880_000), (0, 800_000)] {
        record.guarantees[0].instrument = instrument;
        assert_eq!(reported(&record).rest, rest);
    }
}

fn answered(edition: u64, lines: &[String]) -> [u64; 4] {
    let mut results = [0; 4];
    let book = headed(edition, lines);
    assert_eq!(answer_book(&book, &mut results), Ok(1));
    results
}

/// Lines S under each header: one field more than a G, and refused as it is.
#[test]
fn books() {
    for edition in [1, 2, 3] {
        let terms = terms_line(&Terms { edition, ..LOAN });
        let with = |lines: &[String]| answered(edition, &[slice::from_ref(&terms), lines].concat());
        let swap = |entry| swap_line(edition, &as_swap(GUARANTEE, entry));
        let guarantee = guarantee_line(edition, &GUARANTEE);
        assert_eq!(with(&[swap(0)]), [1, 0, 1_000_000, 880_000]);
        assert_eq!(with(&[swap(1)]), [1, 0, 1_000_000, 800_000]);
        let three = [swap(0), guarantee.clone(), swap(1)];
        assert_eq!(with(&three), [1, 0, 1_000_000, 480_000]);
        assert_eq!(with(&[swap(0), swap(2)]), [1, 8, 4, 0]);
        let mut full = vec![guarantee.clone(); 15];
        full.extend([swap(0), swap(2)]);
        assert_eq!(with(&full), [1, 6, 19, 0]);
        // A field too few, and too many.
        let short = guarantee.replace('G', "S");
        assert_eq!(with(&[short]), [1, 11, 3, 0]);
        let long = swap(0).replace('\n', "\t0\n");
        assert_eq!(with(&[long]), [1, 11, 3, 0]);
        let long = swap(0).replace('S', "G");
        assert_eq!(with(&[long]), [1, 11, 3, 0]);
    }
}
