//! Refusals of netting sets: each at its edges, in their order, and lists of any length
//! and of any numbers.

use crate::netting::{
    cash, eligible, lent, received, reply, security, BOND, DOLLAR, EURO, LIMIT, TERMS, YEN,
};
use hadlephoga::{
    net_set_numbers, NettingReply, NettingSet, Position, SetTerms, POSITIONS, RECEIVED,
};

fn refusal(terms: SetTerms, positions: &[Position]) -> u64 {
    reply(terms, positions).refusal
}

/// The reply with both figures 0, as beside every refusal.
fn refused(refusal: u64) -> NettingReply {
    NettingReply {
        refusal,
        exposure: 0,
        rwa: 0,
    }
}

/// Numbers beside a range, and such as are in it in fewer bits.
fn outside(first: u64, last: u64) -> Vec<u64> {
    let wide = [8, 16, 32, 63].map(|bits| (1u64 << bits) + first);
    [first.wrapping_sub(1), last + 1, u64::MAX]
        .into_iter()
        .chain(wide)
        .filter(|number| !(first..=last).contains(number))
        .collect()
}

/// With one of the six numbers of the set changed.
fn of_terms(place: usize, number: u64, terms: SetTerms) -> u64 {
    let mut numbers = terms.to_numbers();
    numbers[place] = number;
    refusal(SetTerms::from_numbers(&numbers), &[BOND])
}

#[test]
fn of_the_terms() {
    let unrated = SetTerms { step: 0, ..TERMS };
    let by_place = [
        (2, 3, 2),
        (1, 4, 2),
        (0, 6, 3),
        (0, 6, 3),
        (1, 999, 4),
        (1, 60, 5),
    ];
    for (place, (first, last, due)) in by_place.into_iter().enumerate() {
        for number in [first, last] {
            assert_eq!(of_terms(place, number, unrated), 0, "{place} {number}");
        }
        for number in outside(first, last) {
            assert_eq!(of_terms(place, number, unrated), due, "{place} {number}");
        }
    }
}

/// Retail has no step; neither retail nor a sovereign has a sovereign.
#[test]
fn steps_that_are_due_to_be_0() {
    for (class, sovereign_step) in [(1, 1), (1, 6), (4, 1), (4, 6), (1, 7), (4, u64::MAX)] {
        let terms = SetTerms {
            class,
            step: 0,
            sovereign_step,
            ..TERMS
        };
        assert_eq!(refusal(terms, &[]), 3, "{terms:?}");
        let sovereign_step = 0;
        let without = SetTerms {
            sovereign_step,
            ..terms
        };
        assert_eq!(refusal(without, &[]), 0);
        let stepped = SetTerms { step: 1, ..without };
        assert_eq!(refusal(stepped, &[]), if class == 4 { 3 } else { 0 });
    }
}

/// With one of the seven numbers of a position changed.
fn of_position(place: usize, number: u64, position: Position) -> u64 {
    let mut numbers = position.to_numbers();
    numbers[place] = number;
    refusal(TERMS, &[Position::from_numbers(&numbers)])
}

/// Types 2 to 6 are dated as the bond is; of the others see below.
#[test]
fn of_a_position() {
    let by_place = [
        (1, 2, 2),
        (0, LIMIT, 1),
        (1, 999, 5),
        (1, 9, 2),
        (0, 6, 3),
        (1, 100_000, 5),
        (1, 999, 4),
    ];
    for (place, (first, last, due)) in by_place.into_iter().enumerate() {
        let taken = if place == 3 { [2, 6] } else { [first, last] };
        for number in taken {
            assert_eq!(of_position(place, number, BOND), 0, "{place} {number}");
        }
        for number in outside(first, last) {
            assert_eq!(of_position(place, number, BOND), due, "{place} {number}");
        }
    }
}

/// Security numbers are 0 for cash and for nothing else; cash, equity and gold have
/// neither step nor life.
#[test]
fn by_type() {
    for goods in 1..=9 {
        let undated = matches!(goods, 1 | 7 | 8 | 9);
        let (number, step, life) = match goods {
            1 => (0, 0, 0),
            _ if undated => (5, 0, 0),
            _ => (5, 1, 360),
        };
        let position = lent(1, security(number, [goods, step, life], EURO));
        assert_eq!(refusal(TERMS, &[position]), 0, "{goods}");
        for other in [0, 1, 999] {
            let due = if (other == 0) == (goods == 1) { 0 } else { 5 };
            assert_eq!(of_position(2, other, position), due, "{goods} {other}");
        }
        for other in 1..=6 {
            let due = if undated { 3 } else { 0 };
            assert_eq!(of_position(4, other, position), due, "{goods} {other}");
        }
        for (other, dated_due, undated_due) in [(0, 5, 0), (1, 0, 5), (100_000, 0, 5)] {
            let due = if undated { undated_due } else { dated_due };
            assert_eq!(of_position(5, other, position), due, "{goods} {other}");
        }
    }
}

/// Of two positions that are refused, in any two places of a full set, the first says by
/// what.
#[test]
fn in_every_place() {
    let set = [lent(1, cash(EURO)); POSITIONS];
    let currency = lent(1, cash(1000));
    let amount = lent(LIMIT + 1, cash(EURO));
    for second in 0..POSITIONS {
        for first in 0..second {
            for (one, other, due) in [(currency, amount, 4), (amount, currency, 1)] {
                let mut wrong = set;
                (wrong[first], wrong[second]) = (one, other);
                assert_eq!(refusal(TERMS, &wrong), due, "{first} {second}");
            }
        }
        let mut wrong = set;
        wrong[second] = received(0, security(1, [3, 0, 1], EURO));
        assert_eq!(refusal(TERMS, &wrong), 16, "{second}");
    }
}

/// The list's numbers are mended one after the other, each as its refusal is due.
fn mended(numbers: &mut [u64], steps: &[(usize, u64, u64)]) {
    for (place, number, due) in steps {
        assert_eq!(net_set_numbers(numbers), refused(*due), "{place}");
        numbers[*place] = *number;
    }
}

/// A set with every fault but its length.
#[test]
fn in_their_order() {
    let wrong = [0, LIMIT + 1, 1000, 10, 7, 1, 0];
    let mut numbers = [[4, 5, 7, 7, 1000, 61].to_vec(), wrong.repeat(33)].concat();
    let of_terms = [
        (0, 3, 2),
        (1, 2, 2),
        (2, 0, 3),
        (3, 6, 3),
        (4, EURO, 4),
        (5, 60, 5),
    ];
    mended(&mut numbers, &of_terms);
    assert_eq!(net_set_numbers(&numbers), refused(6));
    numbers.truncate(6 + 7 * POSITIONS);
    for place in (6..numbers.len()).step_by(Position::LENGTH) {
        // The first one is in another currency, and all are of the limit.
        let currency = if place == 6 { YEN } else { EURO };
        let of_position = [
            (place + 1, LIMIT, 1),
            (place, RECEIVED, 2),
            (place + 3, 6, 2),
            (place + 4, 1, 3),
            (place + 6, currency, 4),
            (place + 2, 101, 5),
        ];
        mended(&mut numbers, &of_position);
        numbers[place + 5] = 100_001;
        mended(&mut numbers, &[(place + 5, 100_000, 5)]);
    }
    over_all(numbers);
}

/// Received goods that are not eligible, in two currencies and above the limit. The
/// entries disagree again while some of them are of an eligible type and some are not.
fn over_all(mut numbers: Vec<u64>) {
    mended(&mut numbers, &[(6 + 6, EURO, 15)]);
    for (number, place) in (6..numbers.len()).step_by(Position::LENGTH).enumerate() {
        let due = if number == 0 { 16 } else { 15 };
        mended(&mut numbers, &[(place + 3, 5, due)]);
    }
    for place in (6..numbers.len()).step_by(Position::LENGTH).skip(1) {
        mended(&mut numbers, &[(place + 1, 0, 17)]);
    }
    assert_eq!(net_set_numbers(&numbers), refused(0));
}

/// Any two entries for one security that differ in type, step, life or currency, on
/// either side and with amounts of 0.
#[test]
fn entries_that_disagree() {
    let others = [
        Position { goods: 3, ..BOND },
        Position { step: 2, ..BOND },
        Position {
            issue_life: 721,
            ..BOND
        },
        Position {
            currency: DOLLAR,
            ..BOND
        },
    ];
    for other in others {
        for first in 0..POSITIONS {
            for second in 0..first {
                let mut set = [lent(1, cash(EURO)); POSITIONS];
                set[first] = received(0, other);
                set[second] = lent(0, BOND);
                assert_eq!(refusal(TERMS, &set), 15, "{other:?} {first} {second}");
                set.swap(first, second);
                assert_eq!(refusal(TERMS, &set), 15, "{other:?} {first} {second}");
                set[first].security = 102;
                assert_eq!(refusal(TERMS, &set), 0);
            }
        }
    }
    // Side and amount may differ, and cash is no security.
    let agreeing = [lent(1, BOND), received(2, BOND), lent(3, BOND)];
    assert_eq!(refusal(TERMS, &agreeing), 0);
    let money = [lent(1, cash(EURO)), lent(2, cash(DOLLAR)), cash(YEN)];
    assert_eq!(refusal(TERMS, &money), 0);
}

/// Received goods that are not eligible: of any amount, and where more was lent.
#[test]
fn received_goods() {
    for (goods, step) in (0..=6).flat_map(|step| [2, 3, 4, 5, 6].map(|goods| (goods, step))) {
        let due = if eligible(goods, step) { 0 } else { 16 };
        let debt = security(7, [goods, step, 360], EURO);
        for table in [2, 3] {
            let terms = SetTerms { table, ..TERMS };
            for amount in [0, 1, LIMIT / 2] {
                let set = [lent(LIMIT / 2, debt), received(amount, debt)];
                assert_eq!(refusal(terms, &set), due, "{goods} {step}");
                assert_eq!(refusal(terms, &set[..1]), 0);
            }
        }
    }
    for goods in [7, 8, 9] {
        let set = [received(1, security(7, [goods, 0, 0], DOLLAR))];
        assert_eq!(refusal(TERMS, &set), 0);
    }
}

/// All amounts together, lent and received; one alone is refused by 1.
#[test]
fn sum_of_amounts() {
    for (first, second, due) in [
        (LIMIT, 0, 0),
        (LIMIT - 1, 1, 0),
        (LIMIT, 1, 17),
        (LIMIT, LIMIT, 17),
        (LIMIT + 1, 0, 1),
        (0, LIMIT + 1, 1),
        (u64::MAX, 1, 1),
    ] {
        for [one, other] in [[lent, received], [lent, lent], [received, received]] {
            let set = [one(first, BOND), other(second, cash(DOLLAR))];
            assert_eq!(refusal(TERMS, &set), due, "{first} {second}");
        }
    }
    assert_eq!(refusal(TERMS, &[received(LIMIT, BOND); POSITIONS]), 17);
}

/// Six numbers and seven for each position, before anything else is looked at; then no
/// more than 32 positions, behind the set's own numbers.
#[test]
fn lists_of_every_length() {
    let positions = vec![lent(1, cash(EURO)); POSITIONS + 2];
    let terms = TERMS;
    let numbers = NettingSet { terms, positions }.to_numbers();
    for length in 0..=numbers.len() {
        let (front, _) = numbers.split_at(length);
        let whole = length >= SetTerms::LENGTH && (length - 6) % 7 == 0;
        let due = match (whole, length <= 230) {
            (false, _) => refused(11),
            (true, false) => refused(6),
            (true, true) => {
                let count = (length as u64 - 6) / 7;
                NettingReply {
                    refusal: 0,
                    exposure: count,
                    rwa: count.div_ceil(2),
                }
            }
        };
        assert_eq!(net_set_numbers(front), due, "{length}");
        assert_eq!(NettingSet::from_numbers(front).is_some(), whole);
        let wrong = refused(if whole { 2 } else { 11 });
        assert_eq!(net_set_numbers(&vec![u64::MAX; length]), wrong);
        assert_eq!(net_set_numbers(&vec![0; length]), wrong);
    }
    for length in [0, 5, 7, 12, 14, 229, 231, 6 + 7 * 33 - 1, 6 + 7 * 33 + 1] {
        assert_eq!(net_set_numbers(&numbers[..length]), refused(11));
    }
    let many = [&TERMS.to_numbers()[..], &vec![u64::MAX; 7 * 100_000]].concat();
    assert_eq!(net_set_numbers(&many), refused(6));
}

/// The largest number in each place of a set, alone.
#[test]
fn largest_number_in_every_place() {
    let positions = vec![lent(1, BOND); POSITIONS];
    let terms = TERMS;
    let mut numbers = NettingSet { terms, positions }.to_numbers();
    assert_eq!(net_set_numbers(&numbers).refusal, 0);
    for place in 0..numbers.len() {
        let due = match place.checked_sub(SetTerms::LENGTH) {
            None => [2, 2, 3, 3, 4, 5][place],
            Some(place) => [2, 1, 5, 2, 3, 5, 4][place % Position::LENGTH],
        };
        let number = std::mem::replace(&mut numbers[place], u64::MAX);
        assert_eq!(net_set_numbers(&numbers), refused(due), "{place}");
        numbers[place] = number;
    }
}

/// The names of the numbers, in their order.
#[test]
fn places() {
    let terms = SetTerms {
        table: 0,
        class: 1,
        step: 2,
        sovereign_step: 3,
        settlement_currency: 4,
        interval: 5,
    };
    let position = |first| Position {
        side: first,
        amount: first + 1,
        security: first + 2,
        goods: first + 3,
        step: first + 4,
        issue_life: first + 5,
        currency: first + 6,
    };
    let positions = vec![position(6), position(13), position(20)];
    let set = NettingSet { terms, positions };
    let numbers: Vec<u64> = (0..27).collect();
    assert_eq!(set.to_numbers(), numbers);
    assert_eq!(NettingSet::from_numbers(&numbers), Some(set));
}
