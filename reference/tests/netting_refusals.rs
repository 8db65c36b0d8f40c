//! The refusals of a netting set (02: L6, L9): each at its edge, and their order.

mod common;

use common::netting::*;
use common::*;
use reference::{net_set, NettingReply, NettingSet, Position};

/// A bond and gold received for cash and shares lent.
fn sample() -> NettingSet {
    set_of(&[
        cash(LENT, 1_000),
        held(RECEIVED, 600, 7, BOND),
        held(LENT, 300, 8, SHARE),
        held(RECEIVED, 200, 9, GOLD),
    ])
}

/// The refusal, or 0; zeros stand beside a refusal.
fn refusal(set: &NettingSet) -> u64 {
    let reply = net_set(set);
    let refused = NettingReply {
        refusal: reply.refusal,
        ..NettingReply::default()
    };
    assert!(reply.refusal == 0 || reply == refused, "{reply:?}");
    reply.refusal
}

fn changed(change: impl Fn(&mut NettingSet)) -> NettingSet {
    let mut set = sample();
    change(&mut set);
    set
}

/// Checks that a field of the set is accepted at some numbers and refused at the
/// others, the largest among them.
fn assert_field(
    field: impl Fn(&mut NettingSet) -> &mut u64,
    accepted: &[u64],
    refused: &[u64],
    expected: u64,
) {
    for &number in accepted {
        let set = changed(|set| *field(set) = number);
        assert_eq!(refusal(&set), 0, "{set:?}");
    }
    for &number in refused.iter().chain(&[1 << 32, u64::MAX]) {
        let set = changed(|set| *field(set) = number);
        assert_eq!(refusal(&set), expected, "{set:?}");
    }
}

#[test]
fn refusal_2_of_the_set_its_table_and_class() {
    let wrong = [0, 1, 4, 5, 256 + 2, (1 << 32) + 2, (1 << 32) + 3];
    assert_field(|set| &mut set.table, &[2, 3], &wrong, 2);
    // Class 2 and 3 may have the sovereign's step of the sample, 1.
    assert_field(|set| &mut set.class, &[2, 3], &[0, 5, 256 + 2], 2);
    for class in [1, 4] {
        let set = with_party(&sample(), [class, 0, 0]);
        assert_eq!(refusal(&set), 0);
    }
}

#[test]
fn refusal_3_of_the_set_its_steps() {
    for (class, step, sovereign_step) in (1..=4)
        .flat_map(|class| (0..=7).map(move |step| (class, step)))
        .flat_map(|(class, step)| (0..=7).map(move |sovereign| (class, step, sovereign)))
    {
        let fits = step <= if class == 4 { 0 } else { 6 };
        let fits = fits && sovereign_fits(class, sovereign_step);
        let set = with_party(&sample(), [class, step, sovereign_step]);
        assert_eq!(refusal(&set), if fits { 0 } else { 3 }, "{set:?}");
    }
    assert_field(|set| &mut set.step, &[0, 6], &[7, 256], 3);
    assert_field(|set| &mut set.sovereign_step, &[0, 6], &[7, 256], 3);
}

#[test]
fn refusals_4_and_5_of_the_set_its_currency_and_interval() {
    assert_field(|set| &mut set.settlement, &[1, 999], &[0, 1_000], 4);
    assert_field(|set| &mut set.interval, &[1, 60], &[0, 61, 250, 257], 5);
}

#[test]
fn refusal_6_of_a_thirty_third_position() {
    let of = |count| set_of(&vec![cash(LENT, 1); count]);
    assert_eq!([0, 1, 31, 32].map(|count| refusal(&of(count))), [0; 4]);
    let more = [33, 34, 256, 257, 65_536, 65_537];
    assert_eq!(more.map(|count| refusal(&of(count))), [6; 6]);
    // Nothing of the positions themselves is tested before.
    let many = vec![Position::from([u64::MAX; 7]); 100];
    assert_eq!(refusal(&set_of(&many)), 6);
}

#[test]
fn refusals_1_and_2_of_a_position_its_amount_side_and_type() {
    for place in [0, 1] {
        // One at the limit needs all others at 0.
        let with = |amount| {
            changed(|set| {
                set.positions.iter_mut().for_each(|one| one.amount = 0);
                set.positions[place].amount = amount;
            })
        };
        assert_eq!([0, 1, LIMIT].map(|n| refusal(&with(n))), [0; 3]);
        let above = [LIMIT + 1, 1 << 63, u64::MAX];
        assert_eq!(above.map(|n| refusal(&with(n))), [1; 3]);
    }
    assert_field(|set| &mut set.positions[1].side, &[1, 2], &[0, 3, 257], 2);
    assert_field(|set| &mut set.positions[3].goods, &[7, 8, 9], &[0, 10], 2);
    assert_field(
        |set| &mut set.positions[1].goods,
        &[2, 3, 4, 5],
        &[0, 10],
        2,
    );
}

#[test]
fn refusal_3_of_a_position_its_step() {
    for goods in 1..=9 {
        let debt = ![1, 7, 8, 9].contains(&goods);
        for step in (0..=7).chain([256, u64::MAX]) {
            let number = u64::from(goods != 1);
            let one = held(LENT, 1, number, [goods, step, u64::from(debt), 978]);
            let fits = step <= if debt { 6 } else { 0 };
            let expected = if fits { 0 } else { 3 };
            assert_eq!(refusal(&set_of(&[one])), expected, "{one:?}");
        }
    }
}

#[test]
fn refusal_4_of_a_position_its_currency() {
    for place in 0..4 {
        let field = |set: &mut NettingSet, number| set.positions[place].currency = number;
        for (number, expected) in [(1, 0), (999, 0), (0, 4), (1_000, 4), (u64::MAX, 4)] {
            let set = changed(|set| field(set, number));
            assert_eq!(refusal(&set), expected, "{set:?}");
        }
    }
}

#[test]
fn refusal_5_of_a_position_its_security_number() {
    for goods in 1..=9 {
        let life = u64::from(![1, 7, 8, 9].contains(&goods));
        for number in [0, 1, 2, 998, 999, 1_000, 1 << 32, u64::MAX] {
            let one = held(LENT, 1, number, [goods, 0, life, 978]);
            let fits = if goods == 1 {
                number == 0
            } else {
                (1..=999).contains(&number)
            };
            let expected = if fits { 0 } else { 5 };
            assert_eq!(refusal(&set_of(&[one])), expected, "{one:?}");
        }
    }
}

#[test]
fn refusal_5_of_a_position_its_issue_life() {
    for goods in 1..=9 {
        let debt = ![1, 7, 8, 9].contains(&goods);
        for life in [0, 1, 36_001, 100_000, 100_001, 1 << 32, u64::MAX] {
            let number = u64::from(goods != 1);
            let one = held(LENT, 1, number, [goods, 0, life, 978]);
            let fits = if debt {
                (1..=100_000).contains(&life)
            } else {
                life == 0
            };
            let expected = if fits { 0 } else { 5 };
            assert_eq!(refusal(&set_of(&[one])), expected, "{one:?}");
        }
    }
}

#[test]
fn refusal_15_where_entries_for_a_security_disagree() {
    let first = [2, 1, 720, 978];
    for (second, expected) in [
        (first, 0),
        ([3, 1, 720, 978], 15),
        ([2, 2, 720, 978], 15),
        ([2, 1, 721, 978], 15),
        ([2, 1, 720, 840], 15),
    ] {
        for sides in [[1, 1], [1, 2], [2, 1], [2, 2]] {
            // Amounts may differ, and be 0; the entries need not be neighbours.
            let one = held(sides[0], 0, 5, first);
            let other = held(sides[1], 9, 5, second);
            let apart = [one, cash(LENT, 3), held(LENT, 4, 6, SHARE), other];
            assert_eq!(refusal(&set_of(&[one, other])), expected, "{second:?}");
            assert_eq!(refusal(&set_of(&apart)), expected, "{second:?}");
            let numbers = [held(sides[0], 0, 4, first), other];
            assert_eq!(refusal(&set_of(&numbers)), 0, "{second:?}");
        }
    }
}

#[test]
fn refusal_15_of_the_first_and_the_last_of_many() {
    let mut positions: Vec<Position> = (1..=32)
        .map(|number| held(LENT, 1, number, SHARE))
        .collect();
    assert_eq!(refusal(&set_of(&positions)), 0);
    positions[31] = held(RECEIVED, 1, 1, SHARE);
    assert_eq!(refusal(&set_of(&positions)), 0);
    positions[31] = held(RECEIVED, 1, 1, INDEX);
    assert_eq!(refusal(&set_of(&positions)), 15);
    // A third entry is held against those that agree.
    positions[31] = held(LENT, 1, 1, SHARE);
    positions[15] = held(LENT, 1, 1, quoted(SHARE, 1));
    assert_eq!(refusal(&set_of(&positions)), 15);
}

#[test]
fn cash_of_several_currencies_is_no_security() {
    let positions = [978, 840, 756].map(|currency| cash_in(currency, LENT, 1));
    assert_eq!(refusal(&set_of(&positions)), 0);
}

#[test]
fn refusal_16_of_received_goods_that_are_not_eligible() {
    for (goods, step) in (1..=9).flat_map(|goods| (0..=6).map(move |step| (goods, step))) {
        let debt = ![1, 7, 8, 9].contains(&goods);
        if step > 0 && !debt {
            continue;
        }
        let security = [goods, step, 500 * u64::from(debt), 978];
        let number = u64::from(goods != 1);
        let [goods, step, life, _] = security;
        let expected = if is_eligible([goods, step, life, 0]) {
            0
        } else {
            16
        };
        // An amount of 0 too, and where the net is lent.
        let received = |amount| held(RECEIVED, amount, number, security);
        let lent = held(LENT, 100, number, security);
        for (table, set) in TABLES.into_iter().flat_map(|table| {
            [
                (table, set_of(&[received(50)])),
                (table, set_of(&[received(0)])),
                (table, set_of(&[lent, received(50)])),
                (table, set_of(&[received(100), lent])),
                (table, set_of(&[cash(LENT, 7), lent, received(0)])),
            ]
        }) {
            assert_eq!(refusal(&by_table(&set, table)), expected, "{set:?}");
        }
        assert_eq!(refusal(&set_of(&[lent])), 0, "{lent:?}");
    }
}

#[test]
fn refusal_17_where_all_amounts_together_are_above_the_limit() {
    for (one, other, expected) in [
        (LIMIT, 0, 0),
        (LIMIT - 1, 1, 0),
        (LIMIT / 2, LIMIT / 2, 0),
        (LIMIT, 1, 17),
        (LIMIT / 2, LIMIT / 2 + 1, 17),
        (LIMIT, LIMIT, 17),
    ] {
        // Lent and received count alike, in one security and in several.
        for sides in [[1, 1], [1, 2], [2, 1], [2, 2]] {
            let first = held(sides[0], one, 1, GOLD);
            let same = held(sides[1], other, 1, GOLD);
            let cash = cash_in(840, sides[1], other);
            assert_eq!(refusal(&set_of(&[first, same])), expected);
            assert_eq!(refusal(&set_of(&[first, cash])), expected);
        }
    }
    let mut many = vec![cash(LENT, LIMIT / 32); 32];
    assert_eq!(refusal(&set_of(&many)), 0);
    many[31].amount += 1;
    assert_eq!(refusal(&set_of(&many)), 17);
    assert_eq!(refusal(&set_of(&vec![cash(LENT, LIMIT); 32])), 17);
}

/// A change that makes the set refused; changes do not undo each other.
type Fault = (u64, fn(&mut NettingSet));

/// In the order of the tests. Those of a position are at the first one, then at
/// the second; 15, 16 and 17 need positions of their own.
const FAULTS: [Fault; 24] = [
    (2, |set| set.table = 4),
    (2, |set| set.class = 5),
    (3, |set| set.step = 7),
    (3, |set| set.sovereign_step = 7),
    (4, |set| set.settlement = 0),
    (5, |set| set.interval = 61),
    (6, |set| set.positions.extend([cash(LENT, 0); 33])),
    (1, |set| set.positions[0].amount = LIMIT + 1),
    (2, |set| set.positions[0].side = 3),
    (2, |set| set.positions[0].goods = 10),
    (3, |set| set.positions[0].step = 7),
    (4, |set| set.positions[0].currency = 1_000),
    (5, |set| set.positions[0].security = 1_000),
    (5, |set| set.positions[0].life = 100_001),
    (1, |set| set.positions[1].amount = LIMIT + 1),
    (2, |set| set.positions[1].side = 0),
    (2, |set| set.positions[1].goods = 0),
    (3, |set| set.positions[1].step = 7),
    (4, |set| set.positions[1].currency = 0),
    (5, |set| set.positions[1].security = 0),
    (5, |set| set.positions[1].life = 0),
    (15, |set| set.positions.push(held(LENT, 1, 9, SHARE))),
    (16, |set| {
        set.positions.push(held(RECEIVED, 0, 99, [6, 1, 1, 978]))
    }),
    (17, |set| set.positions.push(held(LENT, LIMIT, 100, SHARE))),
];

fn faulty() -> NettingSet {
    set_of(&[
        held(LENT, 10, 7, BOND),
        held(RECEIVED, 10, 8, BOND),
        held(RECEIVED, 10, 9, GOLD),
    ])
}

#[test]
fn each_fault_alone_is_refused_by_its_number() {
    assert_eq!(refusal(&faulty()), 0);
    for (number, fault) in FAULTS {
        let mut set = faulty();
        fault(&mut set);
        assert_eq!(refusal(&set), number, "{set:?}");
    }
}

#[test]
fn of_two_faults_the_first_is_given() {
    for (place, (number, first)) in FAULTS.into_iter().enumerate() {
        for (_, second) in &FAULTS[place + 1..] {
            for [one, other] in [[&first, second], [second, &first]] {
                let mut set = faulty();
                one(&mut set);
                other(&mut set);
                assert_eq!(refusal(&set), number, "{set:?}");
            }
        }
    }
}

#[test]
fn of_all_faults_from_one_on_that_one_is_given() {
    for (place, (number, _)) in FAULTS.into_iter().enumerate() {
        let mut set = faulty();
        for (_, fault) in &FAULTS[place..] {
            fault(&mut set);
        }
        assert_eq!(refusal(&set), number, "{set:?}");
    }
}

#[test]
fn positions_are_tested_in_their_order() {
    // Every position has its own fault; each in turn is mended.
    let faults = FAULTS[7..14].iter().rev();
    let mut set = set_of(&[held(LENT, 1, 7, BOND); 7]);
    for (place, (_, fault)) in faults.clone().enumerate() {
        // The faults are those of a first position.
        set.positions.swap(0, place);
        fault(&mut set);
        set.positions.swap(0, place);
    }
    for (place, (number, _)) in faults.enumerate() {
        assert_eq!(refusal(&set), *number, "{set:?}");
        set.positions[place] = held(LENT, 1, 7, BOND);
    }
    assert_eq!(refusal(&set), 0);
}

#[test]
fn the_largest_number_in_each_field() {
    let numbers = set_numbers(&sample());
    // Of the set, then of each position: side, amount, security, type, step, life,
    // currency.
    let position = [2, 1, 5, 2, 3, 5, 4];
    let expected = [2, 2, 3, 3, 4, 5].into_iter();
    let expected = expected.chain(position.into_iter().cycle());
    for (place, expected) in (0..numbers.len()).zip(expected) {
        let mut numbers = numbers.clone();
        numbers[place] = u64::MAX;
        assert_eq!(refusal(&set_from(&numbers)), expected, "{place}");
    }
    assert_eq!(refusal(&set_from(&vec![u64::MAX; numbers.len()])), 2);
    let positions = vec![Position::from([u64::MAX; 7]); 32];
    assert_eq!(refusal(&set_of(&positions)), 1);
    assert_eq!(refusal(&set_of(&[Position::default()])), 2);
    assert_eq!(refusal(&NettingSet::default()), 2);
}
