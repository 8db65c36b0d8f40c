//! Credit default swaps (02: L1): their value, with the cut where restructuring
//! is no credit event, their grounds, their cover together with guarantees, and
//! that books without them keep their answers.

mod common;

use common::*;
use reference::{
    add_swap, answer_book, deals, report, Collateral, Cover, DealRead, Guarantee, Outcome, Swap,
    Terms,
};
use Bare::{LeftOut, Valued};

const ROUNDS: u64 = 20_000;
const LIMIT: u64 = 1_000_000_000_000;

fn swap_of(amount: u64) -> Swap {
    swap_for(Guarantee {
        amount,
        ..GUARANTEE
    })
}

/// A swap of the amount in another currency than the deal's.
fn foreign(amount: u64) -> Swap {
    swap_for(Guarantee {
        amount,
        currency: 840,
        ..GUARANTEE
    })
}

/// A swap that ends after the days, where the deal lasts 1,800.
fn lasting(residual: u64, swap: Swap) -> Swap {
    swap_for(Guarantee {
        residual,
        ..swap.guarantee
    })
}

fn terms_for(amount: u64) -> Terms {
    Terms { amount, ..TERMS }
}

#[test]
fn the_cut_is_60_percent_of_the_smaller_amount_rounded_down() {
    for (deal, swap, value) in [
        (1_000, 999, 599),                   // 599.4
        (1_000, 1_000, 600),                 // both alike
        (1_000, 1_001, 600),                 // not 600.6
        (1_000, 2_000, 600),                 // not 1,200
        (1_000, LIMIT, 600),                 //
        (999, 1_000, 599),                   // 599.4
        (LIMIT, LIMIT - 1, 599_999_999_999), // 599,999,999,999.4
        (LIMIT, LIMIT, 600_000_000_000),     //
        (LIMIT - 1, LIMIT, 599_999_999_999), // 599,999,999,999.4
        (LIMIT, 1_000_000, 600_000),         //
    ] {
        let outcome = outcome_of_swap(terms_for(deal), swap_of(swap));
        assert_eq!(outcome, Valued(value), "{deal} {swap}");
    }
}

#[test]
fn the_cut_of_the_smallest_amounts() {
    // 0, 0.6, 1.2, 1.8, 2.4, 3.0, 3.6 rounded down.
    for (amount, value) in (0..=6).zip([0, 0, 1, 1, 2, 3, 3]) {
        let of_the_swap = outcome_of_swap(terms_for(LIMIT), swap_of(amount));
        assert_eq!(of_the_swap, Valued(value), "{amount}");
        let of_the_deal = outcome_of_swap(terms_for(amount), swap_of(LIMIT));
        assert_eq!(of_the_deal, Valued(value), "{amount}");
        let of_both = outcome_of_swap(terms_for(amount), swap_of(amount));
        assert_eq!(of_both, Valued(value), "{amount}");
    }
}

#[test]
fn with_the_condition_met_the_whole_amount_counts() {
    for deal in [0, 1, 2, 3, 999, 1_000, 1_001, LIMIT] {
        for amount in [0, 1, 2, 3, 999, 1_000, 1_001, LIMIT] {
            let outcome = outcome_of_swap(terms_for(deal), met(swap_of(amount)));
            assert_eq!(outcome, Valued(amount), "{deal} {amount}");
        }
    }
}

#[test]
fn what_is_cut_stays_uncovered() {
    // Weights 0 and 100: 600 of 1,000 are covered, or all of it.
    let report_of = |swap: Swap| report(&covered(terms_for(1_000), &[swap.into()]));
    let cut = report_of(swap_of(1_001));
    assert_eq!(cut.guarantees[0], (cut_to(600, 1_001), 600));
    assert_eq!([cut.exposure, cut.rest, cut.weighted], [1_000, 400, 400]);
    let uncut = report_of(met(swap_of(1_001)));
    assert_eq!(uncut.guarantees[0], (whole(1_001), 1_000));
    assert_eq!([uncut.exposure, uncut.rest, uncut.weighted], [1_000, 0, 0]);
}

#[test]
fn the_cut_looks_at_the_deals_amount_as_sent() {
    // E* is 1,000 - 700 = 300. The swap of 800 is worth 480, not 180.
    let cash = Collateral {
        amount: 700,
        ..CASH
    };
    let mut record = deal(terms_for(1_000), &[cash], &[]);
    assert_eq!(add_swap(&mut record, swap_of(800)), 0);
    let secured = report(&record);
    assert_eq!(secured.guarantees[0], (cut_to(480, 800), 300));
    assert_eq!([secured.exposure, secured.rest], [300, 0]);

    // Lent equity raises 1,000 to 1,250 at n = 10; 60 percent is of 1,000 still.
    let lent = Terms {
        kind: 1,
        interval: 6,
        lent_goods: 8,
        ..terms_for(1_000)
    };
    assert_eq!(outcome_of_swap(lent, swap_of(1_200)), Valued(600));
}

#[test]
fn each_swap_is_cut_by_itself() {
    // Two of 1,000 for a deal of 1,000 are worth 600 each and cover all of it.
    let record = covered(terms_for(1_000), &[swap_of(1_000).into(); 2]);
    let report = report(&record);
    assert_eq!(report.guarantees[0], (cut_to(600, 1_000), 600));
    assert_eq!(report.guarantees[1], (cut_to(600, 1_000), 400));
    assert_eq!([report.rest, report.weighted], [0, 0]);
}

#[test]
fn the_cut_is_rounded_before_the_currency() {
    // n = 10: 8 percent. 11: 6.6, then 6 × 0.92 = 5.52; not 10 × 0.6 = 6. 15: 9,
    // then 8.28; not 13 × 0.6 = 7.8. 2: 1.2, then 0.92; not 2 × 0.552 = 1.104.
    for (amount, value) in [
        (2, 0),
        (11, 5),
        (15, 8),
        (200_000, 110_400),
        (999_999, 551_999), // 599,999 × 0.92 = 551,999.08
        (1_000_000, 552_000),
    ] {
        for kind in [1, 2, 3] {
            let terms = Terms { kind, ..TERMS };
            let outcome = outcome_of_swap(terms, foreign(amount));
            assert_eq!(outcome, Valued(value), "{amount} {kind}");
        }
    }
    assert_eq!(outcome_of_swap(TERMS, met(foreign(11))), Valued(10));
    assert_eq!(
        outcome_of_swap(TERMS, met(foreign(200_000))),
        Valued(184_000)
    );
}

#[test]
fn the_currency_haircut_of_a_swap_has_the_days_of_a_guarantee() {
    // n = 259: 407,137 × 407,137 = 165,760,536,769 reaches 165,760,000,000 and
    // 407,136 × 407,136 = 165,759,722,496 does not. 600,000 × 0.592863 = 355,717.8.
    for kind in [1, 2, 3] {
        let terms = Terms {
            kind,
            interval: 250,
            ..TERMS
        };
        assert_eq!(outcome_of_swap(terms, foreign(1_000_000)), Valued(355_717));
        let whole = outcome_of_swap(terms, met(foreign(1_000_000)));
        assert_eq!(whole, Valued(592_863));
    }
}

#[test]
fn the_cut_is_rounded_before_the_maturity() {
    // 900 of 1,800 days keep 810 / 1,710 = 9 / 19. 11: 6.6, then 54 / 19 = 2.8;
    // not 5 × 0.6 = 3. 25: 15, then 135 / 19 = 7.1; not 11 × 0.6 = 6.6.
    for (amount, value) in [
        (2, 0),
        (11, 2),
        (25, 7),
        (1_000_000, 284_210), // 5,400,000 / 19 = 284,210.5
    ] {
        let outcome = outcome_of_swap(TERMS, lasting(900, swap_of(amount)));
        assert_eq!(outcome, Valued(value), "{amount}");
    }
    // 600,000 / 1,710 = 350.9.
    let shortest = lasting(91, swap_of(1_000_000));
    assert_eq!(outcome_of_swap(TERMS, shortest), Valued(350));
    // 9,000,000 / 19 = 473,684.2.
    let whole = met(lasting(900, swap_of(1_000_000)));
    assert_eq!(outcome_of_swap(TERMS, whole), Valued(473_684));
}

#[test]
fn the_cut_comes_first_then_the_currency_then_the_maturity() {
    // 10: 6, 5.52, then 5 × 9 / 19 = 2.4; not 6 × 9 / 19 = 2.8, then 1.84.
    // 1,000,000: 600,000, 552,000, then 4,968,000 / 19 = 261,473.7.
    for (amount, value) in [(10, 2), (1_000_000, 261_473)] {
        let outcome = outcome_of_swap(TERMS, lasting(900, foreign(amount)));
        assert_eq!(outcome, Valued(value), "{amount}");
    }
    // A deal of 10 cuts a larger swap to the same 6 before all else.
    let larger = lasting(900, foreign(1_000_000));
    assert_eq!(outcome_of_swap(terms_for(10), larger), Valued(2));
}

#[test]
fn the_largest_accepted_numbers() {
    let bank = swap_for(Guarantee {
        amount: LIMIT,
        ..guarantee_of([2, 1, 0])
    });
    // 600 and 400 thousand million at 20, then nothing is left to cover.
    let full = report(&covered(terms_for(LIMIT), &[bank.into(); 16]));
    let cut = cut_to(600_000_000_000, LIMIT);
    assert_eq!(full.guarantees[0], (cut, 600_000_000_000));
    assert_eq!(full.guarantees[1], (cut, 400_000_000_000));
    assert_eq!(full.guarantees[2..], [(cut, 0); 14]);
    assert_eq!([full.rest, full.weighted], [0, 200_000_000_000]);
    let uncut = report(&covered(terms_for(LIMIT), &[met(bank).into(); 16]));
    assert_eq!(uncut.guarantees[0], (whole(LIMIT), LIMIT));
    assert_eq!(uncut.guarantees[1..], [(whole(LIMIT), 0); 15]);
    assert_eq!([uncut.rest, uncut.weighted], [0, 200_000_000_000]);
}

/// The guarantee that a swap counts as, by the words of the request.
fn as_guarantee(item: &Cover, deal_amount: u64) -> Guarantee {
    let sent = *item.guarantee();
    match item {
        Cover::Swap(Swap {
            restructuring: 0, ..
        }) => Guarantee {
            amount: sent.amount.min(deal_amount) * 60 / 100,
            ..sent
        },
        _ => sent,
    }
}

#[test]
fn a_swap_is_reported_like_the_guarantee_that_it_counts_as() {
    let mut random = Random::new(51);
    let mut cut = 0;
    for _ in 0..ROUNDS {
        let record = random.deal();
        let mut guaranteed = record.clone();
        for item in &mut guaranteed.guarantees {
            *item = as_guarantee(item, record.terms.amount).into();
        }
        let mut expected = report(&guaranteed);
        for (item, (outcome, _)) in record.guarantees.iter().zip(&mut expected.guarantees) {
            let counts_as = as_guarantee(item, record.terms.amount).amount;
            match outcome {
                Outcome::Valued(valuation) => {
                    valuation.cut_loss = item.guarantee().amount - counts_as;
                }
                Outcome::LeftOut { amount, .. } => *amount = item.guarantee().amount,
            }
        }
        assert_eq!(report(&record), expected);
        let mut whole = record.clone();
        for item in &mut whole.guarantees {
            *item = (*item.guarantee()).into();
        }
        cut += u64::from(report(&whole).weighted < report(&record).weighted);
    }
    assert!(cut > ROUNDS / 20, "{cut}");
}

#[test]
fn grounds_of_a_swap_in_order() {
    for restructuring in [0, 1] {
        // All grounds apply at first; each is then mended in turn.
        let mut sent = Guarantee {
            class: 3,
            step: 0,
            residual: 90,
            original: 359,
            lawful: 0,
            direct: 0,
            unreflected: 0,
            ..GUARANTEE
        };
        let outcome = |guarantee| {
            let swap = Swap {
                guarantee,
                restructuring,
            };
            outcome_of_swap(TERMS, swap)
        };
        assert_eq!(outcome(sent), LeftOut(21));
        sent.lawful = 1;
        assert_eq!(outcome(sent), LeftOut(27));
        sent.direct = 1;
        assert_eq!(outcome(sent), LeftOut(23));
        sent.unreflected = 1;
        assert_eq!(outcome(sent), LeftOut(28));
        sent.step = 4;
        assert_eq!(outcome(sent), LeftOut(25));
        sent.original = 360;
        assert_eq!(outcome(sent), LeftOut(26));
        sent.residual = 91;
        assert_eq!(outcome(sent), LeftOut(29));
        sent.step = 2;
        // 1,000 / 1,710 or 600 / 1,710, rounded down: a value, not a ground.
        assert_eq!(outcome(sent), Valued(0));
    }
}

#[test]
fn every_ground_of_a_swap_by_itself() {
    let short = |residual, original| Guarantee {
        residual,
        original,
        ..GUARANTEE
    };
    let lawless = Guarantee {
        lawful: 0,
        ..GUARANTEE
    };
    let indirect = Guarantee {
        direct: 0,
        ..GUARANTEE
    };
    let reflected = Guarantee {
        unreflected: 0,
        ..GUARANTEE
    };
    for (guarantee, ground) in [
        (lawless, 21),
        (indirect, 27),
        (reflected, 23),
        (guarantee_of([3, 0, 0]), 28),
        (short(300, 359), 25),
        (short(90, 360), 26),
        (guarantee_of([3, 3, 0]), 29), // 100, as the counterparty
        (guarantee_of([2, 6, 0]), 29), // 150
        (guarantee_of([1, 0, 0]), 29), // 100
    ] {
        for swap in [swap_for(guarantee), met(swap_for(guarantee))] {
            let report = report(&covered(TERMS, &[swap.into()]));
            assert_eq!(report.guarantees[0], (left_out(ground, 1_000), 0));
            assert_eq!([report.rest, report.weighted], [1_000_000; 2]);
        }
    }
    // 600 × 210 / 1,710 = 73.7 where the original term is a year.
    let year = swap_for(short(300, 360));
    assert_eq!(outcome_of_swap(TERMS, year), Valued(73));
}

/// A guarantee of the amount by the party, in the deal's currency.
fn guaranteed(amount: u64, party: Party) -> Guarantee {
    Guarantee {
        amount,
        ..guarantee_of(party)
    }
}

#[test]
fn guarantees_and_swaps_cover_in_a_single_order_of_weight() {
    let items: [Cover; 6] = [
        swap_for(guaranteed(50, [2, 3, 0])).into(), // 30 at 50
        guaranteed(30, [2, 2, 0]).into(),           // 30 at 50
        met(swap_for(guaranteed(20, [1, 2, 0]))).into(), // 20 at 20
        guaranteed(15, [3, 1, 0]).into(),           // 15 at 20
        swap_for(guaranteed(40, [3, 0, 0])).into(), // ground 28
        swap_for(guaranteed(10, [1, 1, 0])).into(), // 6 at 0
    ];
    let outcome = |items: &[Cover]| {
        let report = report(&covered(terms_for(100), items));
        let portions = report.guarantees.map(|(_, portion)| portion);
        (portions[..6].to_vec(), report.rest, report.weighted)
    };
    // 6, then 20 and 15, then 30 and 29: 35 × 20 + 59 × 50 = 3,650, rounded up.
    assert_eq!(outcome(&items), (vec![30, 29, 20, 15, 0, 6], 0, 37));
    // Equal weights go by arrival, whichever of them is the swap.
    let mut swapped = items;
    swapped.swap(0, 1);
    assert_eq!(outcome(&swapped), (vec![30, 29, 20, 15, 0, 6], 0, 37));
    swapped.reverse();
    assert_eq!(outcome(&swapped), (vec![6, 0, 15, 20, 30, 29], 0, 37));
}

#[test]
fn a_later_swap_at_a_lower_weight_covers_first() {
    // Document 01's 80 at 20 before 60 at 0, the latter as 60 percent of 100.
    let items = [guaranteed(80, [2, 1, 0]).into(), swap_of(150).into()];
    let found = report(&covered(terms_for(100), &items));
    assert_eq!(found.guarantees[0], (whole(80), 40));
    assert_eq!(found.guarantees[1], (cut_to(60, 150), 60));
    assert_eq!(found.weighted, 8);
}

/// A book headed 3 without S lines: guarantees by every party for every
/// counterparty, of amounts around the deal's, on every ground and refusal, and
/// random deals; and the reports that this crate printed for it before L1.
const RECORDED_BOOK: &str = include_str!("recorded/before_l1.book");
const RECORDED_REPORTS: &str = include_str!("recorded/before_l1.reports");

#[test]
fn answers_recorded_before_are_kept() {
    assert_recorded(RECORDED_BOOK, RECORDED_REPORTS);
}

#[test]
fn the_recorded_book_reaches_all_that_guarantees_can_meet() {
    assert!(RECORDED_BOOK.starts_with("CRM\t3\n"));
    assert!(RECORDED_BOOK.lines().all(|line| !line.starts_with('S')));
    for ground in [21, 23, 25, 26, 27, 28, 29] {
        let guarantee = format!("\tGROUND\t{ground}\t0");
        assert!(RECORDED_REPORTS.contains(&guarantee), "{ground}");
    }
    for refusal in [1, 2, 3, 4, 5, 6, 7, 8, 11] {
        let refused = format!("\tREFUSED\t{refusal}\t");
        assert!(RECORDED_REPORTS.contains(&refused), "{refusal}");
    }
    let read = deals(RECORDED_BOOK.as_bytes()).expect("accepted book");
    let accepted = read.iter().filter_map(|deal| match deal {
        DealRead::Accepted(record) => Some(record),
        DealRead::Refused { .. } => None,
    });
    assert_eq!([accepted.clone().count(), read.len()], [235, 273]);
    let (mut below, mut at, mut above) = (0, 0, 0);
    for record in accepted {
        for item in &record.guarantees[..record.guarantee_count as usize] {
            match item.guarantee().amount.cmp(&record.terms.amount) {
                std::cmp::Ordering::Less => below += 1,
                std::cmp::Ordering::Equal => at += 1,
                std::cmp::Ordering::Greater => above += 1,
            }
        }
    }
    assert!(below.min(at).min(above) >= 40, "{below} {at} {above}");
}

/// The recorded book with the guarantees as swaps with the condition.
fn recorded_as_swaps(condition: &str) -> String {
    let line_as_swap = |line: &str| match line.strip_prefix("G\t") {
        Some(fields) => format!("S\t{fields}\t{condition}\n"),
        None => format!("{line}\n"),
    };
    RECORDED_BOOK.lines().map(line_as_swap).collect()
}

#[test]
fn the_recorded_answers_are_those_of_swaps_with_the_condition_met() {
    let reports = RECORDED_REPORTS.replace("\tGUARANTEE\t", "\tSWAP\t");
    assert_recorded(&recorded_as_swaps("1"), &reports);
}

#[test]
fn the_recorded_book_with_swaps_cut_is_never_weighted_less() {
    let weighted = |book: &str| {
        let mut results = vec![0; 4 * 2_048];
        let reply = answer_book(book.as_bytes(), &mut results);
        results.truncate(4 * reply.deals);
        let fours = results.chunks(4).map(|four| [four[1], four[2], four[3]]);
        fours.collect::<Vec<_>>()
    };
    let mut raised = 0;
    let before = weighted(RECORDED_BOOK);
    let cut = weighted(&recorded_as_swaps("0"));
    assert_eq!(before.len(), cut.len());
    for (before, cut) in before.iter().zip(&cut) {
        assert_eq!(before[..2], cut[..2]);
        assert!(before[2] <= cut[2]);
        raised += u64::from(before[2] < cut[2]);
    }
    assert!(raised > 50, "{raised}");
}
