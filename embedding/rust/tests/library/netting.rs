//! Netting sets: nets, haircuts, rounding, limits and weights, worked out by hand from
//! the papers' tables.

use crate::sample::{CASH, LOAN, SAMPLE};
use hadlephoga::{
    answer_book_numbers, layout, net_set, net_set_numbers, report, BookReply, Netted, NettingReply,
    NettingSet, Position, Record, Refusal, SetTerms, LENT, POSITIONS, RECEIVED,
};

pub const EURO: u64 = 978;
pub const DOLLAR: u64 = 840;
pub const STERLING: u64 = 826;
pub const YEN: u64 = 392;
pub const LIMIT: u64 = 1_000_000_000_000;

/// With a bank at step 2, which weighs 50, settled in euros. The interval makes n 10,
/// for which the tables stand.
pub const TERMS: SetTerms = SetTerms {
    table: 2,
    class: 2,
    step: 2,
    sovereign_step: 0,
    settlement_currency: EURO,
    interval: 6,
};

/// A sovereign's at step 1, with a life of two years: 2 percent under both tables.
pub const BOND: Position = Position {
    side: LENT,
    amount: 1_000_000,
    security: 101,
    goods: 2,
    step: 1,
    issue_life: 720,
    currency: EURO,
};

pub fn lent(amount: u64, position: Position) -> Position {
    let side = LENT;
    Position {
        side,
        amount,
        ..position
    }
}

pub fn received(amount: u64, position: Position) -> Position {
    let side = RECEIVED;
    Position {
        side,
        amount,
        ..position
    }
}

pub fn cash(currency: u64) -> Position {
    security(0, [1, 0, 0], currency)
}

/// Type, step and issue life.
pub fn security(security: u64, [goods, step, issue_life]: [u64; 3], currency: u64) -> Position {
    Position {
        security,
        goods,
        step,
        issue_life,
        currency,
        ..BOND
    }
}

/// The reply to a set, which is the same in both forms. Beside a refusal are zeros.
pub fn reply(terms: SetTerms, positions: &[Position]) -> NettingReply {
    let positions = positions.to_vec();
    let set = NettingSet { terms, positions };
    let numbers = set.to_numbers();
    assert_eq!(NettingSet::from_numbers(&numbers).as_ref(), Some(&set));
    let reply = net_set_numbers(&numbers);
    let NettingReply {
        refusal,
        exposure,
        rwa,
    } = reply;
    match refusal {
        0 => assert_eq!(net_set(&set), Ok(Netted { exposure, rwa })),
        _ => {
            assert_eq!(net_set(&set), Err(Refusal(refusal)));
            assert_eq!([exposure, rwa], [0, 0], "{set:?}");
        }
    }
    reply
}

fn netted(terms: SetTerms, positions: &[Position]) -> [u64; 2] {
    let reply = reply(terms, positions);
    assert_eq!(reply.refusal, 0, "{terms:?} {positions:?}");
    [reply.exposure, reply.rwa]
}

/// E* alone.
fn exposure(terms: SetTerms, positions: &[Position]) -> u64 {
    netted(terms, positions)[0]
}

/// The set of the examples.
fn example() -> [Position; 6] {
    [
        lent(1_000_000, BOND),
        received(700_000, cash(EURO)),
        received(400_000, BOND),
        lent(500_000, security(202, [7, 0, 0], DOLLAR)),
        received(300_000, security(303, [3, 2, 720], DOLLAR)),
        received(50_000, cash(DOLLAR)),
    ]
}

/// Both tables, and other terms.
#[test]
fn worked_by_hand() {
    let set = example();
    // 50,000 + 600,000 at 2% + 500,000 at 15% + 300,000 at 6% + 150,000 at 8%.
    assert_eq!(netted(TERMS, &set), [167_000, 83_500]);
    // The equity at 20%, the corporate's bond at 4%, the weight 30.
    let of_2023 = SetTerms { table: 3, ..TERMS };
    assert_eq!(netted(of_2023, &set), [186_000, 55_800]);
    // n 5: 50,000 + 8,485.80 + 53,033.50 + 12,728.10 + 8,485.35 is 132,732.75.
    let interval = 1;
    let daily = SetTerms { interval, ..TERMS };
    assert_eq!(netted(daily, &set), [132_733, 66_367]);
    // n 40 doubles the haircuts: 50,000 + 2 x 117,000.
    let interval = 36;
    let seldom = SetTerms { interval, ..TERMS };
    assert_eq!(netted(seldom, &set), [284_000, 142_000]);
    // In dollars the euros are netted: 300,000 less 700,000 + 600,000 at 8%, 8,000.
    let settlement_currency = DOLLAR;
    let in_dollars = SetTerms {
        settlement_currency,
        ..TERMS
    };
    assert_eq!(netted(in_dollars, &set), [163_000, 81_500]);
    let retail = SetTerms {
        class: 4,
        step: 0,
        ..TERMS
    };
    assert_eq!(netted(retail, &set), [167_000, 125_250]);
}

/// Every order of these, each with the same reply.
fn in_every_order(terms: SetTerms, positions: &mut [Position], from: usize, due: [u64; 2]) {
    if from == positions.len() {
        assert_eq!(netted(terms, positions), due);
    }
    for place in from..positions.len() {
        positions.swap(from, place);
        in_every_order(terms, positions, from + 1, due);
        positions.swap(from, place);
    }
}

#[test]
fn order_does_not_matter() {
    in_every_order(TERMS, &mut example(), 0, [167_000, 83_500]);
}

#[test]
fn a_security_on_both_sides() {
    // 100,000, and the net of 600,000 at 2%, lent or received.
    let net_lent = [
        lent(1_000_000, BOND),
        received(400_000, BOND),
        received(500_000, cash(EURO)),
    ];
    assert_eq!(exposure(TERMS, &net_lent), 112_000);
    let net_received = [
        lent(400_000, BOND),
        received(1_000_000, BOND),
        lent(700_000, cash(EURO)),
    ];
    assert_eq!(exposure(TERMS, &net_received), 112_000);
    // In parts, a net of 0.
    let nothing = [
        lent(300_000, BOND),
        received(500_000, BOND),
        lent(200_000, BOND),
        lent(7, cash(EURO)),
    ];
    assert_eq!(exposure(TERMS, &nothing), 7);
}

/// The same goods under another number are another security: 20,000 twice.
#[test]
fn alike_under_two_numbers() {
    for (one, other) in [(101, 102), (1, 999), (1, 257)] {
        let of = |security| Position { security, ..BOND };
        let set = [lent(1_000_000, of(one)), received(1_000_000, of(other))];
        assert_eq!(exposure(TERMS, &set), 40_000);
    }
}

/// Cash is in the net of its currency alone.
#[test]
fn several_currencies() {
    let set = [
        lent(500_000, cash(DOLLAR)),
        received(300_000, cash(DOLLAR)),
        received(100_000, cash(YEN)),
        lent(50_000, cash(STERLING)),
        received(50_000, cash(STERLING)),
        received(100_000, cash(EURO)),
    ];
    // Of the dollars 200,000 were lent net, of yen and euros 100,000 received, each at 8%.
    for (settlement_currency, due) in [
        (EURO, 24_000),
        (DOLLAR, 16_000),
        (YEN, 24_000),
        (STERLING, 32_000),
        (1, 32_000),
        (999, 32_000),
    ] {
        let terms = SetTerms {
            settlement_currency,
            ..TERMS
        };
        assert_eq!(netted(terms, &set), [due, due / 2], "{settlement_currency}");
    }
}

/// A security in another currency is in both nets, each by itself.
#[test]
fn securities_in_other_currencies() {
    let gold = security(9, [9, 0, 0], DOLLAR);
    let against = |payment| exposure(TERMS, &[lent(100_000, gold), payment]);
    assert_eq!(against(received(100_000, cash(EURO))), 23_000);
    assert_eq!(against(received(100_000, cash(DOLLAR))), 15_000);
    assert_eq!(against(received(100_000, cash(YEN))), 31_000);
    assert_eq!(against(received(100_000, gold)), 0);
    let other = security(10, [9, 0, 0], DOLLAR);
    assert_eq!(against(received(100_000, other)), 30_000);
}

/// In millionths: what a million of a security adds, lent against cash or received for
/// it, so that lent less received is 0.
fn haircut(terms: SetTerms, goods: [u64; 3]) -> u64 {
    let million = 1_000_000;
    let position = security(1, goods, EURO);
    let due = exposure(
        terms,
        &[lent(million, position), received(million, cash(EURO))],
    );
    let other = reply(
        terms,
        &[received(million, position), lent(million, cash(EURO))],
    );
    if other.refusal != 16 {
        assert_eq!([other.refusal, other.exposure], [0, due], "{goods:?}");
    }
    due
}

/// First and last day of a band, with the haircuts at step 1 and at steps 2 and 3 in
/// thousandths.
type Band = (u64, u64, u64, u64);

const SOVEREIGN: [Band; 3] = [
    (1, 360, 5, 10),
    (361, 1800, 20, 30),
    (1801, 100_000, 40, 60),
];
const OTHER: [Band; 3] = [
    (1, 360, 10, 20),
    (361, 1800, 40, 60),
    (1801, 100_000, 80, 120),
];
const SECURITISATION: [Band; 3] = [
    (1, 360, 20, 40),
    (361, 1800, 80, 120),
    (1801, 100_000, 160, 240),
];
const OTHER_OF_2023: [Band; 5] = [
    (1, 360, 10, 20),
    (361, 1080, 30, 40),
    (1081, 1800, 40, 60),
    (1801, 3600, 60, 120),
    (3601, 100_000, 120, 200),
];

#[test]
fn haircuts_of_debt() {
    for (table, goods, bands) in [
        (2, 2, &SOVEREIGN[..]),
        (3, 2, &SOVEREIGN),
        (2, 3, &OTHER),
        (2, 4, &OTHER),
        (3, 3, &OTHER_OF_2023),
        (3, 4, &OTHER_OF_2023),
        (2, 5, &SECURITISATION),
        (3, 5, &SECURITISATION),
    ] {
        let terms = SetTerms { table, ..TERMS };
        for &(first, last, best, second) in bands {
            for (step, due) in [(1, best), (2, second), (3, second)] {
                for life in [first, last] {
                    let found = haircut(terms, [goods, step, life]);
                    assert_eq!(found, due * 1000, "{table} {goods} {step} {life}");
                }
            }
            assert_eq!(haircut(terms, [2, 4, first]), 150_000);
            assert_eq!(haircut(terms, [2, 4, last]), 150_000);
        }
    }
}

/// Whether debt is eligible as collateral, which here no listing makes it.
pub fn eligible(goods: u64, step: u64) -> bool {
    match goods {
        2 => (1..=4).contains(&step),
        6 => false,
        _ => (1..=3).contains(&step),
    }
}

/// Goods that are not eligible can be lent, at the haircut of such lent goods.
#[test]
fn other_haircuts() {
    for (table, main_index, other) in [(2, 150_000, 250_000), (3, 200_000, 300_000)] {
        let terms = SetTerms { table, ..TERMS };
        assert_eq!(haircut(terms, [7, 0, 0]), main_index);
        assert_eq!(haircut(terms, [9, 0, 0]), main_index);
        assert_eq!(haircut(terms, [8, 0, 0]), other);
        for (goods, step) in (0..=6).flat_map(|step| [2, 3, 4, 5, 6].map(|goods| (goods, step))) {
            for life in [1, 100_000] {
                let found = haircut(terms, [goods, step, life]);
                let due = eligible(goods, step) || found == other;
                assert!(due, "{table} {goods} {step} {life}");
            }
        }
    }
}

/// What is added to the haircut of a security of a million by its currency.
fn currency_haircut(terms: SetTerms, goods: [u64; 3]) -> u64 {
    let million = 1_000_000;
    let position = security(1, goods, YEN);
    let set = [lent(million, position), received(million, cash(EURO))];
    exposure(terms, &set) - haircut(terms, goods)
}

/// The least whole number whose square times ten is at or above the haircut's times n.
fn is_scaled(found: u64, haircut: u64, n: u64) {
    let square = haircut * haircut * n;
    assert!(10 * found * found >= square, "{found} {haircut} {n}");
    assert!(
        10 * (found - 1) * (found - 1) < square,
        "{found} {haircut} {n}"
    );
}

/// Each haircut is scaled by itself to n = interval + 4, the currency's too.
#[test]
fn scaled_to_the_interval() {
    for interval in 1..=60 {
        for (table, goods, printed) in [
            (2, [2, 1, 360], 5_000),
            (2, [3, 1, 360], 10_000),
            (3, [4, 3, 1], 20_000),
            (3, [3, 1, 361], 30_000),
            (2, [5, 3, 1801], 240_000),
            (3, [9, 0, 0], 200_000),
            (3, [8, 0, 0], 300_000),
        ] {
            let terms = SetTerms {
                table,
                interval,
                ..TERMS
            };
            is_scaled(haircut(terms, goods), printed, interval + 4);
            is_scaled(currency_haircut(terms, goods), 80_000, interval + 4);
        }
    }
}

#[test]
fn figures_of_scaling() {
    let of = |interval, goods| haircut(SetTerms { interval, ..TERMS }, goods);
    // 80,000 of other issuers' debt with a long life.
    assert_eq!(of(1, [3, 1, 1801]), 56_569);
    assert_eq!(of(6, [3, 1, 1801]), 80_000);
    assert_eq!(of(16, [3, 1, 1801]), 113_138);
    assert_eq!(of(36, [3, 1, 360]), 20_000);
    assert_eq!(of(60, [8, 0, 0]), 632_456);
}

/// In millionths up to the end, and up once.
#[test]
fn rounded_up_once() {
    // Ten securities of 1 at 1 percent each are 0.1 together.
    let mut set: Vec<_> = (1..=10)
        .map(|number| lent(1, security(number, [3, 1, 360], EURO)))
        .collect();
    set.push(received(10, cash(EURO)));
    assert_eq!(exposure(TERMS, &set), 1);
    // 0.15 of gold and 0.08 of the dollars.
    let gold = security(9, [9, 0, 0], DOLLAR);
    let one = [lent(1, gold), received(1, cash(EURO))];
    assert_eq!(exposure(TERMS, &one), 1);
    // A whole number stays; below 0 up is towards 0.
    for (of_it, payment, due) in [
        (100, 100, 1),
        (101, 101, 2),
        (100, 101, 0),
        (101, 102, 1),
        (199, 200, 1),
        (200, 202, 0),
        (201, 203, 1),
        (100, 102, 0),
        (1, 2, 0),
        (0, 1, 0),
    ] {
        let debt = security(5, [3, 1, 360], EURO);
        let set = [lent(of_it, debt), received(payment, cash(EURO))];
        assert_eq!(exposure(TERMS, &set), due, "{of_it} {payment}");
    }
}

/// Equity of 100 is 125 with its haircut, and E* never more than all that was lent.
#[test]
fn not_above_all_that_was_lent() {
    let equity = lent(100, security(8, [8, 0, 0], EURO));
    assert_eq!(exposure(TERMS, &[equity]), 100);
    for (payment, due) in [
        (0, 100),
        (10, 100),
        (25, 100),
        (26, 99),
        (124, 1),
        (125, 0),
        (126, 0),
        (1_000_000, 0),
    ] {
        let set = [equity, received(payment, cash(EURO))];
        assert_eq!(exposure(TERMS, &set), due, "{payment}");
    }
    // All lent positions, not the first: 100 + 30 and 25 besides, less 5.
    let set = [
        equity,
        lent(30, cash(EURO)),
        received(5, cash(EURO)),
        lent(0, BOND),
    ];
    assert_eq!(exposure(TERMS, &set), 130);
    // Lent alone, whatever the haircuts are.
    let interval = 60;
    let alone = [equity, lent(7, cash(DOLLAR)), lent(9, BOND)];
    assert_eq!(exposure(SetTerms { interval, ..TERMS }, &alone), 116);
}

#[test]
fn not_below_0() {
    assert_eq!(netted(TERMS, &[]), [0, 0]);
    for position in [cash(EURO), cash(DOLLAR), BOND, security(9, [9, 0, 0], YEN)] {
        for amount in [0, 1, LIMIT] {
            assert_eq!(netted(TERMS, &[received(amount, position)]), [0, 0]);
        }
    }
    assert_eq!(netted(TERMS, &[lent(0, BOND), lent(0, cash(YEN))]), [0, 0]);
    // 1,000,000 with 20,000 against 1,020,001.
    let set = [lent(1_000_000, BOND), received(1_020_001, cash(EURO))];
    assert_eq!(netted(TERMS, &set), [0, 0]);
}

/// What cash of 100 that was lent weighs.
fn weighs(table: u64, class: u64, step: u64, sovereign_step: u64) -> u64 {
    let terms = SetTerms {
        table,
        class,
        step,
        sovereign_step,
        ..TERMS
    };
    let [exposure, rwa] = netted(terms, &[lent(100, cash(EURO))]);
    assert_eq!(exposure, 100);
    rwa
}

/// From step 1 to 6 by table: sovereign, bank, corporate.
const RATED: [[[u64; 6]; 3]; 2] = [
    [
        [0, 20, 50, 100, 100, 150],
        [20, 50, 50, 100, 100, 150],
        [20, 50, 100, 100, 150, 150],
    ],
    [
        [0, 20, 50, 100, 100, 150],
        [20, 30, 50, 100, 100, 150],
        [20, 50, 75, 100, 150, 150],
    ],
];

#[test]
fn weights() {
    for (table, classes) in (2..).zip(RATED) {
        for (class, weights) in (1..).zip(classes) {
            for (step, weight) in (1..).zip(weights) {
                // No floor for rated parties.
                for sovereign in 0..=if class == 1 { 0 } else { 6 } {
                    assert_eq!(weighs(table, class, step, sovereign), weight);
                }
            }
        }
        assert_eq!(weighs(table, 1, 0, 0), 100);
        assert_eq!(weighs(table, 4, 0, 0), 75);
    }
}

/// An unrated party weighs at least what its sovereign weighs, under both tables.
#[test]
fn sovereign_floor() {
    let sovereign = [100, 0, 20, 50, 100, 100, 150];
    for (step, weight) in (0..).zip(sovereign) {
        assert_eq!(weighs(2, 2, 0, step), weight.max(50));
        assert_eq!(weighs(2, 3, 0, step), weight.max(100));
        assert_eq!(weighs(3, 2, 0, step), 150);
        assert_eq!(weighs(3, 3, 0, step), weight.max(100));
    }
}

/// The weighted amount is rounded up after the exposure was.
#[test]
fn weighted_amounts_are_rounded_up() {
    let retail = SetTerms {
        class: 4,
        step: 0,
        ..TERMS
    };
    for (amount, due) in [(0, 0), (1, 1), (2, 2), (3, 3), (4, 3), (5, 4)] {
        assert_eq!(netted(retail, &[lent(amount, cash(EURO))]), [amount, due]);
    }
    let best = SetTerms {
        class: 1,
        step: 1,
        ..TERMS
    };
    assert_eq!(netted(best, &[lent(LIMIT, cash(EURO))]), [LIMIT, 0]);
}

#[test]
fn largest_sets() {
    let heavy = SetTerms {
        table: 3,
        class: 3,
        step: 6,
        interval: 60,
        ..TERMS
    };
    let equity = security(999, [8, 0, 0], DOLLAR);
    let most = [LIMIT, LIMIT / 2 * 3];
    assert_eq!(netted(heavy, &[lent(LIMIT, equity)]), most);
    let part = LIMIT / POSITIONS as u64;
    assert_eq!(netted(heavy, &[lent(part, equity); POSITIONS]), most);
    // 16 parts each way, in two currencies: the raise is above the whole.
    let halves: Vec<_> = [lent(part, equity), received(part, cash(YEN))].repeat(POSITIONS / 2);
    assert_eq!(netted(heavy, &halves), most.map(|figure| figure / 2));
    // 200,000,000,000 and 15 percent of 400,000,000,000 of gold.
    let gold = security(1, [9, 0, 0], EURO);
    let set = [
        lent(LIMIT / 10 * 6, cash(EURO)),
        received(LIMIT / 10 * 4, gold),
    ];
    assert_eq!(netted(TERMS, &set), [260_000_000_000, 130_000_000_000]);
    // 32 securities, each by itself: lent and received in turns, 2 percent of all.
    let many: Vec<_> = (1..=POSITIONS as u64)
        .map(|security| Position { security, ..BOND })
        .map(|bond| match bond.security % 2 {
            0 => lent(part, bond),
            _ => received(part, bond),
        })
        .collect();
    assert_eq!(netted(TERMS, &many), [20_000_000_000, 10_000_000_000]);
}

/// What else the library gives is the same before and behind a netting set.
#[test]
fn nothing_else_is_changed() {
    let record = Record::new(LOAN, &[CASH], &[]);
    let others = || {
        let mut results = [7; 13];
        let reply = answer_book_numbers(SAMPLE, &mut results);
        (layout(), reply, results, report(&record))
    };
    let before = others();
    let deals = 3;
    assert_eq!(before.0, 4);
    assert_eq!(before.1, BookReply { refusal: 0, deals });
    assert_eq!(netted(TERMS, &example()), [167_000, 83_500]);
    assert_eq!(others(), before);
    let refused = [received(1, security(1, [6, 1, 1], EURO))];
    assert_eq!(reply(TERMS, &refused).refusal, 16);
    assert_eq!(others(), before);
}
