//! Issue lives and terms up to 100,000 days (02: L11).

mod common;

use common::*;
use reference::{
    add_collateral, add_guarantee, answer_book, deals, open, printed_reports, report, Collateral,
    DealRead, Guarantee, Record, Terms, AMOUNT_LIMIT,
};
use Bare::{LeftOut, Valued};

const ROUNDS: u64 = 20_000;
const LONGEST: u64 = 100_000;
const LONGEST_BEFORE: u64 = 36_000;
/// The old edge, the edge of 16 bits and the new one.
const LONG: [u64; 6] = [36_000, 36_001, 65_535, 65_536, 99_999, 100_000];
/// The sums would pass if cut to 32, or to 17 or 16 bits.
const TOO_LONG: [u64; 4] = [
    100_001,
    (1 << 17) + 1_800,
    (1 << 32) + 1_800,
    9_999_999_999_999,
];

/// Goods types with an issue life, and those without.
const DEBT: [u64; 5] = [2, 3, 4, 5, 6];
const OTHER_GOODS: [u64; 4] = [1, 7, 8, 9];

/// A deal with one item of each kind, which may be one to be refused.
#[derive(Clone, Copy, Debug)]
struct Deal {
    terms: Terms,
    collateral: Collateral,
    guarantee: Guarantee,
}

/// Its original terms leave room for every accepted residual term.
const SAMPLE: Deal = Deal {
    terms: TERMS,
    collateral: Collateral {
        original: LONGEST,
        ..CASH
    },
    guarantee: Guarantee {
        original: LONGEST,
        ..GUARANTEE
    },
};

impl Deal {
    /// The first refusal of opening and adding, or 0.
    fn refusal_by_operations(&self) -> u64 {
        let mut record = match open(self.terms) {
            Ok(record) => record,
            Err(refusal) => return refusal,
        };
        match add_collateral(&mut record, self.collateral) {
            0 => add_guarantee(&mut record, self.guarantee),
            refusal => refusal,
        }
    }

    /// The record as it would be if nothing were tested.
    fn record(&self) -> Record {
        let mut record = open(TERMS).expect("accepted terms");
        record.terms = self.terms;
        record.collateral_count = 1;
        record.collateral[0] = self.collateral;
        record.guarantee_count = 1;
        record.guarantees[0] = self.guarantee.into();
        record
    }

    fn book(&self) -> String {
        let d = terms_line(&self.terms);
        let c = collateral_line(&self.collateral);
        let g = guarantee_line(&self.guarantee, self.terms.edition);
        format!("{}{d}{c}{g}", header(self.terms.edition))
    }

    fn longest(&self) -> u64 {
        let Deal {
            terms: t,
            collateral: c,
            guarantee: g,
        } = self;
        let lives = t.lent_life.max(c.life);
        let terms = [t.residual, c.residual, c.original, g.residual, g.original];
        terms.into_iter().fold(lives, u64::max)
    }
}

fn lending(lent_goods: u64, lent_life: u64) -> Deal {
    let terms = Terms {
        lent_goods,
        lent_step: u64::from(DEBT.contains(&lent_goods)),
        lent_life,
        ..SAMPLE.terms
    };
    Deal { terms, ..SAMPLE }
}

fn pledging(goods: u64, life: u64) -> Deal {
    let collateral = Collateral {
        goods,
        step: u64::from(DEBT.contains(&goods)),
        life,
        ..SAMPLE.collateral
    };
    Deal {
        collateral,
        ..SAMPLE
    }
}

/// The deals with `days` in one field of life or term, each with the number of
/// the line that holds the field in the deal's book.
fn in_each_field(days: u64) -> Vec<(Deal, u64)> {
    let mut long = [SAMPLE; 5];
    long[0].terms.residual = days;
    long[1].collateral.residual = days;
    long[2].collateral.original = days;
    long[3].guarantee.residual = days;
    long[4].guarantee.original = days;
    let terms = long.into_iter().zip([2, 3, 3, 4, 4]);
    let lent = DEBT.map(|goods| (lending(goods, days), 2));
    let pledged = DEBT.map(|goods| (pledging(goods, days), 3));
    terms.chain(lent).chain(pledged).collect()
}

/// Sends the deal in every way: through the operations, as a record, and as a
/// book, whose line of the given number is the one to be refused.
fn assert_refusal(deal: &Deal, line: u64, refusal: u64) {
    assert_eq!(deal.refusal_by_operations(), refusal, "{deal:?}");
    let record = deal.record();
    let reply = report(&record);
    let mut results = [0; 4];
    answer_book(deal.book().as_bytes(), &mut results);
    if refusal == 0 {
        assert_eq!(reply.refusal, 0, "{deal:?}");
        assert_eq!(results, [1, 0, reply.exposure, reply.weighted], "{deal:?}");
    } else {
        assert_eq!(reply.refusal, 40, "{deal:?}");
        assert_eq!(add_collateral(&mut record.clone(), CASH), 40, "{deal:?}");
        assert_eq!(results, [1, refusal, line, 0], "{deal:?}");
    }
}

#[test]
fn up_to_100_000_days_are_accepted_in_every_field() {
    for days in LONG {
        for (deal, line) in in_each_field(days) {
            assert_refusal(&deal, line, 0);
        }
    }
}

#[test]
fn refusal_5_begins_above_100_000_days_in_every_field() {
    for days in TOO_LONG.into_iter().chain([0]) {
        for (deal, line) in in_each_field(days) {
            assert_refusal(&deal, line, 5);
        }
    }
}

#[test]
fn goods_without_an_issue_life_keep_0() {
    for goods in OTHER_GOODS {
        assert_refusal(&lending(goods, 0), 2, 0);
        assert_refusal(&pledging(goods, 0), 3, 0);
        for life in LONG.into_iter().chain(TOO_LONG).chain([1]) {
            assert_refusal(&lending(goods, life), 2, 5);
            assert_refusal(&pledging(goods, life), 3, 5);
        }
    }
}

#[test]
fn residual_above_original_is_7_up_to_the_limit() {
    let mut sample = SAMPLE;
    sample.collateral.residual = LONGEST;
    sample.collateral.original = LONGEST - 1;
    assert_refusal(&sample, 3, 7);
    let mut sample = SAMPLE;
    sample.guarantee.residual = LONGEST;
    sample.guarantee.original = LONGEST - 1;
    assert_refusal(&sample, 4, 7);
}

/// A record with `days` in all its fields of life and term and with full lists.
fn long_everywhere(goods: u64, days: u64) -> Record {
    let mut terms = lending(goods, days).terms;
    terms.residual = days;
    let collateral = Collateral {
        residual: days,
        original: days,
        ..pledging(goods, days).collateral
    };
    let guarantee = Guarantee {
        residual: days,
        original: days,
        ..GUARANTEE
    };
    Record {
        terms,
        collateral_count: 16,
        collateral: [collateral; 16],
        guarantee_count: 16,
        guarantees: [guarantee.into(); 16],
    }
}

#[test]
fn long_days_are_read_back_whole() {
    for goods in DEBT {
        for days in LONG {
            let record = long_everywhere(goods, days);
            let (terms, item, guarantee) = (
                record.terms,
                record.collateral[0],
                *record.guarantees[0].guarantee(),
            );
            let added = deal(terms, &record.collateral, &[guarantee; 16]);
            assert_eq!(added, record);
            let lines = [
                terms_line(&terms),
                collateral_line(&item).repeat(16),
                guarantee_line(&guarantee, terms.edition).repeat(16),
            ];
            let book = header(terms.edition) + &lines.concat();
            let read = vec![DealRead::Accepted(Box::new(record))];
            assert_eq!(deals(book.as_bytes()), Ok(read), "{goods} {days}");
        }
    }
}

#[test]
fn figures_of_undated_state_stock() {
    // The bond in the last band: 4 percent at n = 10. The guarantee of 900 days
    // keeps 810 / 1,710. The second deal lends such stock and is raised.
    let book = "\
CRM 1
D 1000000 3 0 978 2 1 100000 1 0 0
C 500000 2 1 100000 978 100000 100000 1 1 1 0
G 200000 1 1 978 900 100000 1 1 1
D 1000000 3 0 978 2 1 100000 2 1 100000
C 500000 2 1 100000 978 100000 100000 1 1 1 0
D 1000000 3 0 978 2 1 100001 1 0 0
";
    let reports = "\
REPORT 2
1 EXPOSURE 520000
1 COLLATERAL 1 VALUE 480000 20000 0 0
1 GUARANTEE 1 VALUE 94736 0 105264 0 94736
1 REST 425264
1 WEIGHTED 425264
2 EXPOSURE 560000
2 COLLATERAL 1 VALUE 480000 20000 0 0
2 REST 560000
2 WEIGHTED 560000
3 REFUSED 5 7
";
    assert_eq!(printed_reports(&tabbed(book)), tabbed(reports));
}

#[test]
fn a_mismatch_with_a_long_deal_is_one_with_five_years() {
    // 65,626 would be 90 if cut to 16 bits, and no mismatch would be left.
    for deal_term in [1_801, 36_000, 36_001, 65_626, 99_999, 100_000] {
        let terms = Terms {
            residual: deal_term,
            ..TERMS
        };
        let cash = |residual, original| {
            let item = Collateral {
                amount: 1_000_000,
                residual,
                original,
                ..CASH
            };
            outcome_of_collateral(terms, item)
        };
        assert_eq!(cash(deal_term - 1, deal_term), Valued(1_000_000));
        assert_eq!(cash(1_800, 1_800), Valued(1_000_000));
        assert_eq!(cash(1_799, LONGEST), Valued(999_415));
        assert_eq!(cash(900, 1_080), Valued(473_684));
        assert_eq!(cash(91, LONGEST), Valued(584));
        assert_eq!(cash(90, LONGEST), LeftOut(26));
        assert_eq!(cash(90, 359), LeftOut(25));
    }
}

/// The deal with `term` for every term of five years or more, and with a life of
/// at least `life` for every life in the last band, which begins above ten years
/// in the tables of 2023.
fn with_other_long_days(record: &Record, term: u64, life: u64) -> Record {
    let mut changed = record.clone();
    let band_before = if record.terms.edition == 3 {
        3_600
    } else {
        1_800
    };
    let lengthen = |days: &mut u64| {
        if *days >= 1_800 {
            *days = term;
        }
    };
    let outlive = |days: &mut u64| {
        if *days > band_before {
            *days = life.max(band_before + 1);
        }
    };
    lengthen(&mut changed.terms.residual);
    outlive(&mut changed.terms.lent_life);
    for item in &mut changed.collateral {
        outlive(&mut item.life);
        lengthen(&mut item.residual);
        lengthen(&mut item.original);
    }
    for item in &mut changed.guarantees {
        let item = shared(item);
        lengthen(&mut item.residual);
        lengthen(&mut item.original);
    }
    changed
}

#[test]
fn days_beyond_five_years_are_all_alike() {
    let mut random = Random::new(21);
    let mut changed = 0;
    for _ in 0..ROUNDS {
        let record = random.deal();
        let expected = report(&record);
        for days in [1_801, 36_000, 36_001, 65_626, LONGEST] {
            let other = with_other_long_days(&record, days, days);
            assert_eq!(report(&other), expected);
            changed += u64::from(other != record);
        }
        let least = with_other_long_days(&record, 1_800, 1_801);
        assert_eq!(report(&least), expected);
    }
    assert!(changed > ROUNDS);
}

/// The number of the first test that is not met, or 0.
fn first_unmet(tests: &[(u64, bool)]) -> u64 {
    let unmet = tests.iter().find(|(_, met)| !met);
    unmet.map_or(0, |(refusal, _)| *refusal)
}

/// Whether step and life are those of the goods, each by itself.
fn goods_fit(goods: u64, step: u64, life: u64, longest: u64) -> (bool, bool) {
    if DEBT.contains(&goods) {
        (step <= 6, (1..=longest).contains(&life))
    } else {
        (step == 0, life == 0)
    }
}

/// Opening by the papers, with the limit of days left open.
fn opening_by_paper(t: &Terms, longest: u64) -> u64 {
    let (step_fits, life_fits) = goods_fit(t.lent_goods, t.lent_step, t.lent_life, longest);
    let codes = [(t.edition, 3), (t.class, 4), (t.kind, 3), (t.lent_goods, 9)];
    let days = [(t.interval, 250), (t.residual, longest)];
    let within = |&(number, last): &(u64, u64)| (1..=last).contains(&number);
    let last_step = if t.class == 4 { 0 } else { 6 };
    first_unmet(&[
        (1, t.amount <= AMOUNT_LIMIT),
        (2, codes.iter().all(within)),
        (3, t.step <= last_step && step_fits),
        (3, sovereign_fits(t.class, t.sovereign_step)),
        (4, within(&(t.currency, 999))),
        (5, days.iter().all(within) && life_fits),
    ])
}

/// Adding to a list with a free place, in the same way.
fn adding_collateral_by_paper(c: &Collateral, longest: u64) -> u64 {
    let (step_fits, life_fits) = goods_fit(c.goods, c.step, c.life, longest);
    let term = 1..=longest;
    let conditions = [c.lawful, c.unrelated, c.unreflected, c.listed];
    first_unmet(&[
        (1, c.amount <= AMOUNT_LIMIT),
        (2, (1..=9).contains(&c.goods)),
        (3, step_fits),
        (4, (1..=999).contains(&c.currency)),
        (5, life_fits),
        (5, term.contains(&c.residual) && term.contains(&c.original)),
        (7, c.residual <= c.original),
        (8, conditions.into_iter().all(|condition| condition <= 1)),
    ])
}

fn adding_a_guarantee_by_paper(g: &Guarantee, longest: u64) -> u64 {
    let term = 1..=longest;
    let conditions = [g.lawful, g.direct, g.unreflected];
    first_unmet(&[
        (1, g.amount <= AMOUNT_LIMIT),
        (2, (1..=3).contains(&g.class)),
        (3, g.step <= 6 && sovereign_fits(g.class, g.sovereign_step)),
        (4, (1..=999).contains(&g.currency)),
        (5, term.contains(&g.residual) && term.contains(&g.original)),
        (7, g.residual <= g.original),
        (8, conditions.into_iter().all(|condition| condition <= 1)),
    ])
}

fn refusal_by_paper(deal: &Deal, longest: u64) -> u64 {
    let refusals = [
        opening_by_paper(&deal.terms, longest),
        adding_collateral_by_paper(&deal.collateral, longest),
        adding_a_guarantee_by_paper(&deal.guarantee, longest),
    ];
    let first = refusals.into_iter().find(|&refusal| refusal > 0);
    first.unwrap_or(0)
}

fn random_deal(random: &mut Random) -> Deal {
    let mut terms = terms_fields(&random.terms());
    let mut collateral = collateral_fields(&random.collateral());
    let mut guarantee = guarantee_fields(&random.guarantee());
    for fields in [&mut terms[..], &mut collateral, &mut guarantee] {
        if random.chance(4) {
            random.spoil(fields);
        }
    }
    Deal {
        terms: terms.into(),
        collateral: collateral.into(),
        guarantee: guarantee.into(),
    }
}

#[test]
fn deals_without_longer_days_are_accepted_and_refused_as_before() {
    let mut random = Random::new(22);
    let (mut kept, mut still_refused, mut new) = (0, 0, 0);
    for _ in 0..ROUNDS {
        let deal = random_deal(&mut random);
        let before = refusal_by_paper(&deal, LONGEST_BEFORE);
        let now = deal.refusal_by_operations();
        assert_eq!(now, refusal_by_paper(&deal, LONGEST), "{deal:?}");
        if deal.longest() <= LONGEST_BEFORE {
            assert_eq!(now, before, "{deal:?}");
        }
        match (before, now) {
            (0, _) => {
                assert_eq!(now, 0, "{deal:?}");
                kept += 1;
            }
            (_, 0) => {
                assert_eq!(before, 5, "{deal:?}");
                new += 1;
            }
            _ => still_refused += 1,
        }
    }
    let least = ROUNDS / 10;
    assert!(
        kept.min(still_refused).min(new) > least,
        "{kept} {still_refused} {new}"
    );
}

/// A book of random deals whose days are at most 36,000, sound and spoilt, and
/// the reports that this crate printed for it while that was the limit.
const RECORDED_BOOK: &str = include_str!("recorded/before_l11.book");
const RECORDED_REPORTS: &str = include_str!("recorded/before_l11.reports");

#[test]
fn answers_recorded_before_are_kept() {
    assert_recorded(RECORDED_BOOK, RECORDED_REPORTS);
}

#[test]
fn the_recorded_book_reaches_the_limit_of_then_in_every_field() {
    let read = deals(RECORDED_BOOK.as_bytes()).expect("accepted book");
    let mut longest = [0; 7];
    let mut accepted = 0;
    for deal in &read {
        let DealRead::Accepted(record) = deal else {
            continue;
        };
        accepted += 1;
        let mut raise = |place: usize, days: u64| longest[place] = days.max(longest[place]);
        raise(0, record.terms.residual);
        raise(1, record.terms.lent_life);
        for item in &record.collateral {
            raise(2, item.life);
            raise(3, item.residual);
            raise(4, item.original);
        }
        for item in &record.guarantees {
            let item = item.guarantee();
            raise(5, item.residual);
            raise(6, item.original);
        }
    }
    assert_eq!(longest, [LONGEST_BEFORE; 7]);
    assert_eq!([accepted, read.len() - accepted], [120, 30]);
}
