//! Netting sets worked out by hand (02: L6, L9): both tables, nets of securities
//! and currencies, the cap, the floor at 0, rounding, the counterparty's weight.
//!
//! The interval of the sample set makes n 10, where haircuts are those of the
//! tables; its counterparty weighs 100.

mod common;

use common::netting::*;
use common::*;
use reference::{net_set, NettingReply, NettingSet, Position};

/// Checks E*, which is also the weighted amount at weight 100, under both tables.
fn assert_exposures(cases: &[(&[Position], [u64; 2])]) {
    for (positions, expected) in cases {
        for (table, expected) in TABLES.into_iter().zip(*expected) {
            let set = by_table(&set_of(positions), table);
            let reply = NettingReply {
                refusal: 0,
                exposure: expected,
                weighted: expected,
            };
            assert_eq!(net_set(&set), reply, "{set:?}");
        }
    }
}

#[test]
fn without_lent_positions_there_is_no_exposure() {
    assert_exposures(&[
        (&[], [0, 0]),
        (&[cash(RECEIVED, 100)], [0, 0]),
        (&[cash_in(840, RECEIVED, LIMIT)], [0, 0]),
        (&[held(RECEIVED, LIMIT, 1, quoted(SHARE, 840))], [0, 0]),
    ]);
    // At interval 60 the haircuts come closest to the whole: 961,333 millionths.
    let share = set_of(&[held(RECEIVED, LIMIT, 1, quoted(SHARE, 840))]);
    assert_eq!(exposure(&revalued(&by_table(&share, 3), 60)), 0);
}

#[test]
fn without_received_positions_all_that_was_lent_is_the_exposure() {
    assert_exposures(&[
        (&[cash(LENT, 1_000)], [1_000, 1_000]),
        (&[cash(LENT, 0)], [0, 0]),
        // 1,080 by the currency and 1,250 or 1,300 by the security: capped.
        (&[cash_in(840, LENT, 1_000)], [1_000, 1_000]),
        (&[held(LENT, 1_000, 1, SHARE)], [1_000, 1_000]),
        (
            &[held(LENT, 300, 1, SHARE), cash(LENT, 700)],
            [1_000, 1_000],
        ),
    ]);
}

#[test]
fn cash_lent_against_a_bond() {
    let set = set_of(&[cash(LENT, 1_000_000), held(RECEIVED, 900_000, 7, BOND)]);
    // 100,000 + 900,000 × 0.02.
    assert_eq!(exposure(&set), 118_000);
    // n 5: 20,000 becomes 14,143, and 900,000 × 0.014143 = 12,728.7.
    assert_eq!(exposure(&revalued(&set, 1)), 112_729);
    // n 40: 40,000.
    assert_eq!(exposure(&revalued(&set, 36)), 136_000);
    // n 64: 50,597, and 900,000 × 0.050597 = 45,537.3.
    assert_eq!(exposure(&revalued(&set, 60)), 145_538);
}

#[test]
fn bonds_lent_against_cash() {
    let corporate = |life| held(LENT, 500_000, 7, [3, 2, life, 978]);
    let against = cash(RECEIVED, 480_000);
    assert_exposures(&[
        // 20,000 and of 500,000 in the bands of each table: 2 percent; 6 and 4; 6;
        // 12; 12 and 20 percent.
        (&[corporate(360), against], [30_000, 30_000]),
        (&[corporate(361), against], [50_000, 40_000]),
        (&[corporate(1_080), against], [50_000, 40_000]),
        (&[corporate(1_081), against], [50_000, 50_000]),
        (&[corporate(1_801), against], [80_000, 80_000]),
        (&[corporate(3_601), against], [80_000, 120_000]),
    ]);
}

#[test]
fn a_security_on_both_sides_counts_with_its_net() {
    assert_exposures(&[
        // 400 + 400 × 0.15, and × 0.20.
        (
            &[held(LENT, 700, 5, INDEX), held(RECEIVED, 300, 5, INDEX)],
            [460, 480],
        ),
        // A net received: 1,000 + 300 − 700 = 600, and 400 × 0.15 or 0.20.
        (
            &[
                cash(LENT, 1_000),
                held(RECEIVED, 700, 5, INDEX),
                held(LENT, 300, 5, INDEX),
            ],
            [660, 680],
        ),
        // Two securities do not net: 400 + 1,000 × 0.15, and × 0.20.
        (
            &[held(LENT, 700, 5, INDEX), held(RECEIVED, 300, 6, INDEX)],
            [550, 600],
        ),
        // Of many entries: 100 + 250 + 50 − 120 − 30 = 250, and 250 × 0.15 or 0.20
        // = 37.5 or 50.
        (
            &[
                held(LENT, 100, 999, GOLD),
                held(RECEIVED, 120, 999, GOLD),
                held(LENT, 250, 999, GOLD),
                held(RECEIVED, 30, 999, GOLD),
                held(LENT, 50, 999, GOLD),
            ],
            [288, 300],
        ),
    ]);
}

#[test]
fn nets_that_cancel_count_for_nothing() {
    let foreign = quoted(SHARE, 840);
    let both = [held(LENT, 500, 5, foreign), held(RECEIVED, 500, 5, foreign)];
    let thrice = [
        held(LENT, 200, 5, foreign),
        held(RECEIVED, 500, 5, foreign),
        held(LENT, 300, 5, foreign),
    ];
    assert_exposures(&[
        (&both, [0, 0]),
        (&thrice, [0, 0]),
        (&[both[0], both[1], cash(LENT, 100)], [100, 100]),
        (&[thrice[0], cash(LENT, 60), thrice[1], thrice[2]], [60, 60]),
        // The currency cancels and the securities do not: 500 × 0.25 + 500 × 0.15,
        // or 500 × 0.30 + 500 × 0.20.
        (
            &[both[0], held(RECEIVED, 500, 6, quoted(GOLD, 840))],
            [200, 250],
        ),
        // The security cancels and the currencies do not: 840 has 300, 756 −300.
        (
            &[
                both[0],
                both[1],
                cash_in(840, LENT, 300),
                cash_in(756, RECEIVED, 300),
            ],
            [48, 48],
        ),
    ]);
}

#[test]
fn every_currency_but_that_of_settlement_counts_with_its_net() {
    // 600, and of the currencies 840: 1,000, 756: −600, 978: 200.
    let set = set_of(&[
        cash_in(840, LENT, 1_000),
        cash_in(756, RECEIVED, 600),
        cash_in(978, LENT, 200),
    ]);
    for (settlement, expected) in [
        (978, 600 + 128),
        (840, 600 + 64),
        (756, 600 + 96),
        (1, 600 + 144),
    ] {
        let set = NettingSet {
            settlement,
            ..set.clone()
        };
        assert_eq!(exposure(&set), expected, "{settlement}");
    }
    // n 5: 1,600 × 0.056569 = 90.5104; n 64: 1,600 × 0.202386 = 323.8176.
    assert_eq!(exposure(&revalued(&set, 1)), 691);
    assert_eq!(exposure(&revalued(&set, 60)), 924);
}

#[test]
fn nets_of_currencies_are_of_amounts_before_haircuts() {
    assert_exposures(&[
        // 100 + 900 × 0.02 + (1,000 − 900) × 0.08.
        (
            &[
                cash_in(840, LENT, 1_000),
                held(RECEIVED, 900, 3, quoted(BOND, 840)),
            ],
            [126, 126],
        ),
        // 500 + 500 × 0.15 + 500 × 0.08, and with × 0.20.
        (
            &[cash(LENT, 1_000), held(RECEIVED, 500, 3, quoted(GOLD, 840))],
            [615, 640],
        ),
        // In the settlement currency there is nothing to net.
        (&[cash(LENT, 1_000), cash(RECEIVED, 400)], [600, 600]),
    ]);
}

#[test]
fn each_haircut_is_scaled_by_itself() {
    // n 5: 106,067 and 56,569 of 1,000,000; 230,000 together would become 162,635.
    let set = set_of(&[
        cash(LENT, 2_000_000),
        held(RECEIVED, 1_000_000, 3, quoted(GOLD, 840)),
    ]);
    assert_eq!(exposure(&revalued(&set, 1)), 1_000_000 + 106_067 + 56_569);
    // n 64 under table 3: 758,947 and 202,386 of all, the most that one loses.
    let share = held(RECEIVED, 1_000_000, 3, quoted(SHARE, 840));
    let set = by_table(&set_of(&[cash(LENT, 1_000_000), share]), 3);
    assert_eq!(exposure(&revalued(&set, 60)), 961_333);
}

#[test]
fn the_exposure_is_at_most_all_that_was_lent() {
    // A hundred shares: 100 − c + 25 or 30, for cash c received.
    for (received, expected) in [
        (10, [100, 100]),
        (25, [100, 100]),
        (26, [99, 100]),
        (31, [94, 99]),
        (124, [1, 6]),
    ] {
        let positions = [held(LENT, 100, 1, SHARE), cash(RECEIVED, received)];
        assert_exposures(&[(&positions, expected)]);
    }
    // The cap is all that was lent, not the balance: 100 + 500 × 0.25 + 400 × 0.25,
    // and × 0.30.
    let (one, other) = (held(LENT, 500, 1, SHARE), held(LENT, 500, 2, SHARE));
    assert_exposures(&[
        (&[one, other, held(RECEIVED, 900, 2, SHARE)], [325, 370]),
        (&[one, cash(RECEIVED, 0)], [500, 500]),
    ]);
}

#[test]
fn the_exposure_is_not_below_0() {
    assert_exposures(&[
        (&[cash(LENT, 100), cash(RECEIVED, 200)], [0, 0]),
        // 100 − c + 25 or 30.
        (&[held(LENT, 100, 1, SHARE), cash(RECEIVED, 125)], [0, 5]),
        (&[held(LENT, 100, 1, SHARE), cash(RECEIVED, 130)], [0, 0]),
        (&[held(LENT, 100, 1, SHARE), cash(RECEIVED, 131)], [0, 0]),
        // −1 + 2 × 0.005.
        (&[cash(LENT, 1), held(RECEIVED, 2, 1, BILL)], [0, 0]),
        // −1 + 200 × 0.005 = 0, −1 + 201 × 0.005 = 0.005.
        (&[cash(LENT, 199), held(RECEIVED, 200, 1, BILL)], [0, 0]),
        (&[cash(LENT, 200), held(RECEIVED, 201, 1, BILL)], [1, 1]),
    ]);
}

#[test]
fn the_exposure_is_rounded_up_once() {
    let bills = |amount| [1, 2, 3].map(|number| held(RECEIVED, amount, number, BILL));
    let [one, other, third] = bills(1);
    // n 5: 97 + 3 × 0.003536, which is 100 where each net is rounded.
    let set = set_of(&[cash(LENT, 100), one, other, third]);
    assert_eq!(exposure(&revalued(&set, 1)), 98);
    let [one, other, third] = bills(100);
    assert_exposures(&[
        // 800 + 0.5 + 0.5 is whole; 700 + 1.5 is not.
        (&[cash(LENT, 1_000), one, other], [801, 801]),
        (&[cash(LENT, 1_000), one, other, third], [702, 702]),
    ]);
    // n 5: a net of 675,529 in 840 times 56,569 is 38,214,000,001 millionths, and
    // with one less 38,213,943,432.
    for (lent, expected) in [(675_529, 613_744), (675_528, 613_742)] {
        let set = set_of(&[cash_in(840, LENT, lent), cash(RECEIVED, 100_000)]);
        assert_eq!(exposure(&revalued(&set, 1)), expected);
    }
}

#[test]
fn amounts_at_the_limit() {
    assert_exposures(&[
        (&[cash(LENT, LIMIT)], [LIMIT, LIMIT]),
        (&[held(LENT, LIMIT, 1, SHARE)], [LIMIT, LIMIT]),
        (
            &[cash(LENT, LIMIT - 1), cash(RECEIVED, 1)],
            [LIMIT - 2, LIMIT - 2],
        ),
        (&[cash(LENT, 1), cash(RECEIVED, LIMIT - 1)], [0, 0]),
    ]);
    let halves = set_of(&[cash(LENT, LIMIT / 2), held(RECEIVED, LIMIT / 2, 1, GOLD)]);
    // n 64: 379,474 and 505,965 of 500,000,000,000.
    let long = revalued(&halves, 60);
    assert_eq!(exposure(&long), 189_737_000_000);
    assert_eq!(exposure(&by_table(&long, 3)), 252_982_500_000);
    // At weight 150.
    let set = with_party(&set_of(&[cash(LENT, LIMIT)]), [3, 6, 0]);
    assert_eq!(weighted(&set), 1_500_000_000_000);
}

#[test]
fn thirty_two_positions_in_as_many_securities() {
    // 16 × 10,000 − 16 × 4,000 = 96,000, and of 16 × 4,000 15 or 20 percent.
    let lent = (0..16).map(|_| cash(LENT, 10_000));
    let received = (1..=16).map(|number| held(RECEIVED, 4_000, 60 * number, GOLD));
    let positions: Vec<Position> = lent.chain(received).collect();
    assert_exposures(&[(&positions, [105_600, 108_800])]);
}

#[test]
fn lent_goods_not_eligible_have_the_haircut_of_those() {
    // 500 + 1,000 × 0.25, and × 0.30.
    for (goods, steps) in [
        (2, &[0, 5, 6][..]),
        (3, &[0, 4, 5, 6]),
        (4, &[0, 4, 5, 6]),
        (5, &[0, 4, 5, 6]),
        (6, &[0, 1, 2, 3, 4, 5, 6]),
    ] {
        for (&step, life) in steps.iter().flat_map(|step| [(step, 1), (step, 100_000)]) {
            let lent = held(LENT, 1_000, 1, [goods, step, life, 978]);
            assert_exposures(&[(&[lent, cash(RECEIVED, 500)], [750, 800])]);
        }
    }
    // Rated bank debt and sovereign debt at step 4 are eligible.
    for (security, expected) in [([4, 3, 360, 978], 520), ([2, 4, 360, 978], 650)] {
        let lent = held(LENT, 1_000, 1, security);
        assert_exposures(&[(&[lent, cash(RECEIVED, 500)], [expected; 2])]);
    }
}

/// Types, steps and lives at the ends of the bands of all goods but cash.
fn securities() -> Vec<Security> {
    let mut securities = vec![INDEX, SHARE, GOLD];
    for (goods, step) in (2..=6).flat_map(|goods| (0..=6).map(move |step| (goods, step))) {
        for life in [
            1, 360, 361, 1_080, 1_081, 1_800, 1_801, 3_600, 3_601, 100_000,
        ] {
            securities.push([goods, step, life, 978]);
        }
    }
    securities
}

#[test]
fn every_haircut_of_the_tables() {
    let lent = cash(LENT, 1_000_000);
    for (table, security) in TABLES
        .into_iter()
        .flat_map(|t| securities().into_iter().map(move |s| (t, s)))
    {
        let [goods, step, life, _] = security;
        let goods = [goods, step, life, 0];
        if is_eligible(goods) {
            let set = set_of(&[lent, held(RECEIVED, 1_000_000, 1, security)]);
            let haircut = table_haircut(goods, table);
            assert_eq!(exposure(&by_table(&set, table)), haircut, "{security:?}");
        }
        let set = set_of(&[
            held(LENT, 1_000_000, 1, security),
            cash(RECEIVED, 1_000_000),
        ]);
        let haircut = lent_haircut(goods, table);
        assert_eq!(exposure(&by_table(&set, table)), haircut, "{security:?}");
    }
}

#[test]
fn n_is_the_interval_and_4() {
    let gold = set_of(&[cash(LENT, 1_000_000), held(RECEIVED, 1_000_000, 1, GOLD)]);
    let foreign = set_of(&[cash(LENT, 1_000_000), cash_in(840, RECEIVED, 1_000_000)]);
    for interval in 1..=60 {
        let n = interval + 4;
        for (set, table, haircut) in [
            (&gold, 2, 150_000),
            (&gold, 3, 200_000),
            (&foreign, 2, 80_000),
            (&foreign, 3, 80_000),
        ] {
            let found = exposure(&revalued(&by_table(set, table), interval));
            assert_eq!(found, scaled_haircut(haircut, n), "{interval} {haircut}");
        }
    }
}

#[test]
fn every_weight_of_the_tables() {
    let set = set_of(&[cash(LENT, 1_000_000)]);
    for (table, class) in TABLES
        .into_iter()
        .flat_map(|t| (1..=3).map(move |c| (t, c)))
    {
        for step in 0..=6 {
            // A sovereign at step 1 is no floor.
            let party = [class, step, u64::from(class > 1)];
            let set = by_table(&with_party(&set, party), table);
            let expected = weight(class, step, table) * 10_000;
            assert_eq!(weighted(&set), expected, "{table} {party:?}");
            assert_eq!(exposure(&set), 1_000_000);
        }
    }
}

#[test]
fn an_unrated_counterparty_weighs_no_less_than_its_sovereign() {
    let set = set_of(&[cash(LENT, 100)]);
    let by_sovereign = |table, class, step| {
        let weight = |sovereign| {
            let party = [class, step, sovereign];
            weighted(&by_table(&with_party(&set, party), table))
        };
        [0, 1, 2, 3, 4, 5, 6].map(weight)
    };
    assert_eq!(by_sovereign(2, 2, 0), [100, 50, 50, 50, 100, 100, 150]);
    assert_eq!(by_sovereign(3, 2, 0), [150; 7]);
    for table in TABLES {
        let corporate = [100, 100, 100, 100, 100, 100, 150];
        assert_eq!(by_sovereign(table, 3, 0), corporate);
        // Rated ones have no floor.
        assert_eq!(by_sovereign(table, 2, 1), [20; 7]);
        assert_eq!(by_sovereign(table, 3, 2), [50; 7]);
    }
}

#[test]
fn the_weighted_amount_is_rounded_up_once() {
    let retail = |lent| with_party(&set_of(&[cash(LENT, lent)]), [4, 0, 0]);
    // 0.75, 1.5, 2.25, 3 and 73.5.
    for (lent, expected) in [(0, 0), (1, 1), (2, 2), (3, 3), (4, 3), (98, 74)] {
        assert_eq!(weighted(&retail(lent)), expected, "{lent}");
    }
    // 96 + 2 × 2 × 0.005: E* 97 weighs 72.75 as retail, 19.4 at 20 percent.
    let positions = [1, 2].map(|number| held(RECEIVED, 2, number, BILL));
    let set = set_of(&[cash(LENT, 100), positions[0], positions[1]]);
    for (party, expected) in [([4, 0, 0], 73), ([2, 1, 6], 20), ([1, 1, 0], 0)] {
        let reply = net_set(&with_party(&set, party));
        assert_eq!((reply.exposure, reply.weighted), (97, expected));
    }
}
