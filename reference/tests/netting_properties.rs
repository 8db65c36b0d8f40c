//! What must hold of every netting set (02: L6, L9), on random ones: figures and
//! refusals worked out a second way, the order of positions, betterments.

mod common;

use common::netting::*;
use common::*;
use reference::{net_set, NettingReply, NettingSet, Position};

const ROUNDS: u64 = 20_000;

/// Lent less received, of the positions that are meant.
fn net(set: &NettingSet, meant: impl Fn(&Position) -> bool) -> i128 {
    let mut net = 0;
    for one in set.positions.iter().filter(|one| meant(one)) {
        match one.side {
            LENT => net += i128::from(one.amount),
            _ => net -= i128::from(one.amount),
        }
    }
    net
}

/// E* by going through every number that a security or a currency can have.
fn exposure_by_numbers(set: &NettingSet) -> i128 {
    let n = set.interval + 4;
    let mut millionths = net(set, |_| true) * 1_000_000;
    for number in 1..=999 {
        let mut entries = set.positions.iter();
        if let Some(one) = entries.find(|one| one.security == number) {
            let haircut = lent_haircut([one.goods, one.step, one.life, 0], set.table);
            let net = net(set, |one| one.security == number);
            millionths += net.abs() * i128::from(scaled_haircut(haircut, n));
        }
    }
    for number in (1..=999).filter(|&number| number != set.settlement) {
        let net = net(set, |one| one.currency == number);
        millionths += net.abs() * i128::from(scaled_haircut(80_000, n));
    }
    let rounded = (millionths + 999_999).div_euclid(1_000_000);
    rounded.clamp(0, i128::from(total(set, LENT)))
}

/// The counterparty's weight with the floor of its sovereign's.
fn floored_weight(set: &NettingSet) -> u64 {
    let own = weight(set.class, set.step, set.table);
    match (set.class, set.step) {
        (2 | 3, 0) => own.max(weight(1, set.sovereign_step, set.table)),
        _ => own,
    }
}

#[test]
fn figures_are_those_worked_out_by_numbers() {
    let mut random = Random::new(51);
    let mut between = 0;
    for _ in 0..3_000 {
        let set = random.netting_set();
        let exposure = exposure_by_numbers(&set) as u64;
        let hundredfold = exposure * floored_weight(&set);
        let expected = NettingReply {
            refusal: 0,
            exposure,
            weighted: hundredfold / 100 + u64::from(hundredfold % 100 > 0),
        };
        assert_eq!(net_set(&set), expected, "{set:?}");
        between += u64::from(exposure > 0 && exposure < total(&set, LENT));
    }
    assert!(between > 600, "{between}");
}

#[test]
fn the_exposure_is_between_the_balance_and_all_that_was_lent() {
    let mut random = Random::new(52);
    for _ in 0..ROUNDS {
        let set = random.netting_set();
        let (lent, received) = (total(&set, LENT), total(&set, RECEIVED));
        let found = exposure(&set);
        assert!(found <= lent, "{set:?}");
        assert!(found >= lent.saturating_sub(received), "{set:?}");
        let bare = without_protection(&set);
        assert_eq!(exposure(&bare), lent, "{set:?}");
        assert!(weighted(&set) <= weighted(&bare), "{set:?}");
    }
}

#[test]
fn the_order_of_positions_is_immaterial() {
    let mut random = Random::new(53);
    for _ in 0..ROUNDS {
        let mut set = random.netting_set();
        let reply = net_set(&set);
        set.positions.reverse();
        assert_eq!(net_set(&set), reply, "{set:?}");
        for place in 1..set.positions.len() {
            set.positions
                .swap(place, random.within(0, place as u64) as usize);
        }
        assert_eq!(net_set(&set), reply, "{set:?}");
    }
}

#[test]
fn a_position_may_be_split() {
    let mut random = Random::new(54);
    for _ in 0..ROUNDS {
        let mut set = random.netting_set();
        let reply = net_set(&set);
        if (1..32).contains(&set.positions.len()) {
            let place = random.within(0, set.positions.len() as u64 - 1) as usize;
            let mut part = set.positions[place];
            part.amount = random.within(0, part.amount);
            set.positions[place].amount -= part.amount;
            set.positions.push(part);
            assert_eq!(net_set(&set), reply, "{set:?}");
        }
    }
}

/// Makes one received position larger; no change where there is none.
fn enlarge(random: &mut Random, set: &mut NettingSet) {
    let received = set.positions.iter_mut().filter(|one| one.side == RECEIVED);
    let mut received: Vec<&mut Position> = received.collect();
    if !received.is_empty() {
        let place = random.within(0, received.len() as u64 - 1) as usize;
        received[place].amount += random.amount();
    }
}

/// Puts one more received position anywhere.
fn receive_one_more(random: &mut Random, set: &mut NettingSet) {
    let most = random.pick(&[100, LIMIT / 40, LIMIT]);
    let more = Position {
        side: RECEIVED,
        ..random.position(most)
    };
    let place = random.within(0, set.positions.len() as u64) as usize;
    set.positions.insert(place, more);
}

fn revalue_more_often(random: &mut Random, set: &mut NettingSet) {
    set.interval = random.within(1, set.interval);
}

type Betterment = fn(&mut Random, &mut NettingSet);

const BETTERMENTS: [Betterment; 3] = [enlarge, receive_one_more, revalue_more_often];

/// The set after the betterment, or as it was where that is refused.
fn bettered(random: &mut Random, set: &NettingSet, better: Betterment) -> Option<NettingSet> {
    let mut changed = set.clone();
    better(random, &mut changed);
    (net_set(&changed).refusal == 0).then_some(changed)
}

#[test]
fn no_betterment_raises_the_weighted_amount() {
    for (seed, better) in (55..).zip(BETTERMENTS) {
        let mut random = Random::new(seed);
        let mut lowered = 0;
        for _ in 0..ROUNDS {
            let set = random.netting_set();
            if let Some(better) = bettered(&mut random, &set, better) {
                assert!(exposure(&better) <= exposure(&set), "{set:?} {better:?}");
                assert!(weighted(&better) <= weighted(&set), "{set:?} {better:?}");
                lowered += u64::from(weighted(&better) < weighted(&set));
            }
        }
        assert!(lowered > ROUNDS / 10, "{seed} {lowered}");
    }
}

/// The longest period and the highest haircuts, where betterments are closest to
/// having no effect.
#[test]
fn no_betterment_raises_the_weighted_amount_at_the_highest_haircuts() {
    let mut random = Random::new(58);
    let mut lowered = 0;
    for round in 0..ROUNDS {
        let received = held(RECEIVED, round, 1, quoted(SHARE, 840));
        let set = set_of(&[cash(LENT, 2 * round), received]);
        let set = with_party(&by_table(&set, 3), [3, 6, 0]);
        let mut set = revalued(&set, 60);
        let before = weighted(&set);
        set.positions[1].amount += random.within(1, 9);
        assert!(weighted(&set) <= before, "{set:?}");
        lowered += u64::from(weighted(&set) < before);
    }
    assert!(lowered > ROUNDS / 10, "{lowered}");
}

#[test]
fn lists_of_betterments_never_raise_the_weighted_amount() {
    let mut random = Random::new(59);
    let (mut lowered, mut refused) = (0, 0);
    for _ in 0..ROUNDS {
        let mut set = random.netting_set();
        let before = weighted(&set);
        for _ in 0..random.within(1, 8) {
            let better = BETTERMENTS[random.within(0, 2) as usize];
            match bettered(&mut random, &set, better) {
                Some(better) => set = better,
                None => refused += 1,
            }
        }
        let after = weighted(&set);
        let bare = weighted(&without_protection(&set));
        assert!(after <= before && after <= bare, "{set:?}");
        lowered += u64::from(after < before);
    }
    assert!(lowered.min(refused) > ROUNDS / 10, "{lowered} {refused}");
}

/// Whether each test of the set's own fields is met, and its refusal.
fn own_tests(set: &NettingSet) -> Vec<(bool, u64)> {
    let worst = if set.class == 4 { 0 } else { 6 };
    vec![
        (![2, 3].contains(&set.table), 2),
        (set.class < 1 || set.class > 4, 2),
        (set.step > worst, 3),
        (!sovereign_fits(set.class, set.sovereign_step), 3),
        (set.settlement < 1 || set.settlement > 999, 4),
        (set.interval < 1 || set.interval > 60, 5),
        (set.positions.len() > 32, 6),
    ]
}

fn position_tests(one: &Position) -> Vec<(bool, u64)> {
    let bare = [1, 7, 8, 9].contains(&one.goods);
    vec![
        (one.amount > LIMIT, 1),
        (one.side != LENT && one.side != RECEIVED, 2),
        (one.goods < 1 || one.goods > 9, 2),
        (one.step > if bare { 0 } else { 6 }, 3),
        (one.currency < 1 || one.currency > 999, 4),
        (one.goods == 1 && one.security != 0, 5),
        (one.goods != 1 && one.security == 0, 5),
        (one.security > 999, 5),
        (bare && one.life != 0, 5),
        (!bare && (one.life < 1 || one.life > 100_000), 5),
    ]
}

/// Whether two entries for one security disagree.
fn disagree([one, other]: [&Position; 2]) -> bool {
    let described = |one: &Position| [one.goods, one.step, one.life, one.currency];
    one.security != 0 && one.security == other.security && described(one) != described(other)
}

/// The first refusal of a set, or 0, by a list of all tests.
fn refusal_by_list(set: &NettingSet) -> u64 {
    let positions = &set.positions;
    let mut tests = own_tests(set);
    tests.extend(positions.iter().flat_map(position_tests));
    let mut pairs = positions
        .iter()
        .flat_map(|one| positions.iter().map(move |other| [one, other]));
    tests.push((pairs.any(disagree), 15));
    let mut received = positions.iter().filter(|one| one.side == RECEIVED);
    let not_eligible = received.any(|one| !is_eligible([one.goods, one.step, one.life, 0]));
    tests.push((not_eligible, 16));
    let amounts: u128 = positions.iter().map(|one| u128::from(one.amount)).sum();
    tests.push((amounts > u128::from(LIMIT), 17));
    tests
        .iter()
        .find(|(met, _)| *met)
        .map_or(0, |(_, number)| *number)
}

/// A set with some faults.
fn spoiled(random: &mut Random) -> NettingSet {
    let mut numbers = set_numbers(&random.netting_set());
    // The places of the set's own numbers are drawn often enough by themselves.
    let first = random.pick(&[0, 6]) as usize % numbers.len();
    for _ in 0..random.pick(&[0, 1, 1, 2, 3]) {
        random.spoil(&mut numbers[first..]);
    }
    let mut set = set_from(&numbers);
    for _ in 0..random.pick(&[0, 0, 1, 1, 1, 2, 30]) {
        let mut more = random.position(LIMIT);
        if random.chance(6) {
            more.side = RECEIVED;
        }
        if random.chance(6) && more.security != 0 {
            more.security = random.within(1, 8);
        }
        set.positions.push(more);
    }
    set
}

#[test]
fn refusals_are_those_of_a_list_of_all_tests() {
    let mut random = Random::new(60);
    let mut met = [0; 18];
    for _ in 0..ROUNDS * 2 {
        let set = spoiled(&mut random);
        let reply = net_set(&set);
        let refusal = refusal_by_list(&set);
        assert_eq!(reply.refusal, refusal, "{set:?}");
        if refusal != 0 {
            let zeros = NettingReply {
                refusal,
                ..NettingReply::default()
            };
            assert_eq!(reply, zeros, "{set:?}");
        }
        met[refusal as usize] += 1;
    }
    for refusal in [0, 1, 2, 3, 4, 5, 6, 15, 16, 17] {
        assert!(met[refusal] > 100, "{refusal} {met:?}");
    }
}

#[test]
fn any_numbers_are_answered() {
    let mut random = Random::new(61);
    for round in 0..ROUNDS {
        let count = 6 + 7 * random.within(0, 40) as usize;
        let mut numbers = set_numbers(&random.netting_set());
        numbers.resize(count, 0);
        for number in numbers.iter_mut().skip((round % 8) as usize) {
            if random.chance(1 + round % 30) {
                *number = random.any() >> random.pick(&[0, 0, 24, 54, 62]);
            }
        }
        let set = set_from(&numbers);
        assert_eq!(net_set(&set).refusal, refusal_by_list(&set), "{set:?}");
    }
}
