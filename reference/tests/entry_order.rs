//! Entry order (02: L7): the lines of a deal in any order, and cash in the deal's
//! currency sent in two. Deals are shuffled and split, and the replies compared;
//! the figures are worked out from the papers.

mod common;

use common::*;
use reference::{
    add_collateral, open, report, Collateral, Cover, Guarantee, Outcome, Record, Report, Swap,
    Terms, LIST_LIMIT,
};
use std::collections::{BTreeMap, BTreeSet};

const ROUNDS: u64 = 20_000;

/// What a line behind a D line sends.
#[derive(Clone, Copy, Debug)]
enum Item {
    Pledge(Collateral),
    Cover(Cover),
}

impl Item {
    fn add(self, record: &mut Record) -> u64 {
        match self {
            Item::Pledge(item) => add_collateral(record, item),
            Item::Cover(item) => add_cover(record, item),
        }
    }

    fn line(&self, edition: u64) -> String {
        match self {
            Item::Pledge(item) => collateral_line(item),
            Item::Cover(item) => cover_line(item, edition),
        }
    }
}

fn pledge(item: Collateral) -> Item {
    Item::Pledge(item)
}

fn cover(item: impl Into<Cover>) -> Item {
    Item::Cover(item.into())
}

/// The items of a deal: collateral, then guarantees and swaps.
fn items_of(record: &Record) -> Vec<Item> {
    let collateral = &record.collateral[..record.collateral_count as usize];
    let covers = &record.guarantees[..record.guarantee_count as usize];
    let collateral = collateral.iter().map(|item| Item::Pledge(*item));
    collateral
        .chain(covers.iter().map(|item| Item::Cover(*item)))
        .collect()
}

/// The deal with the items in their order, none of which may be refused.
fn deal_of(terms: Terms, items: &[Item]) -> Record {
    let mut record = open(terms).expect("accepted terms");
    for item in items {
        assert_eq!(item.add(&mut record), 0);
    }
    record
}

fn report_of(terms: Terms, items: &[Item]) -> Report {
    report(&deal_of(terms, items))
}

/// What the report says of each item, in the order of the items: its outcome and
/// what it covers.
fn said(items: &[Item], report: &Report) -> Vec<(Outcome, u64)> {
    let mut collateral = report.collateral.iter();
    let mut covers = report.guarantees.iter();
    let said = items.iter().map(|item| match item {
        Item::Pledge(_) => (*collateral.next().expect("a place"), 0),
        Item::Cover(_) => *covers.next().expect("a place"),
    });
    said.collect()
}

/// E*, the uncovered rest and the weighted amount of a deal that is accepted.
fn figures(report: &Report) -> [u64; 3] {
    assert_eq!(report.refusal, 0);
    [report.exposure, report.rest, report.weighted]
}

fn shuffle<T>(random: &mut Random, list: &mut [T]) {
    for place in (1..list.len()).rev() {
        list.swap(place, random.within(0, place as u64) as usize);
    }
}

/// The numbers below the count in a random order.
fn order(random: &mut Random, count: usize) -> Vec<usize> {
    let mut order: Vec<usize> = (0..count).collect();
    shuffle(random, &mut order);
    order
}

fn in_order<T: Clone>(list: &[T], order: &[usize]) -> Vec<T> {
    order.iter().map(|&place| list[place].clone()).collect()
}

/// Every order of the numbers below the count.
fn every_order(count: usize) -> Vec<Vec<usize>> {
    let mut orders = vec![Vec::new()];
    for number in 0..count {
        let longer = orders.iter().flat_map(|order: &Vec<usize>| {
            (0..=order.len()).map(move |place| {
                let mut order = order.clone();
                order.insert(place, number);
                order
            })
        });
        orders = longer.collect();
    }
    orders
}

/// What is covered at each weight.
fn covered_by_weight(
    items: &[Item],
    said: &[(Outcome, u64)],
    edition: u64,
) -> BTreeMap<u64, Vec<u64>> {
    let mut covered: BTreeMap<u64, Vec<u64>> = BTreeMap::new();
    for (item, &(outcome, portion)) in items.iter().zip(said) {
        if let (Item::Cover(item), Outcome::Valued(_)) = (item, outcome) {
            let sent = item.guarantee();
            let party = [sent.class, sent.step, sent.sovereign_step];
            let weight = weight_with_floor(party, &[2], edition);
            covered.entry(weight).or_default().push(portion);
        }
    }
    covered
}

/// A short deal whose guarantees and swaps are mostly recognised, often at equal
/// weights and with more value than is left of E*.
fn crowded_deal(random: &mut Random) -> Record {
    let amount = random.within(1, 100_000);
    let terms = Terms {
        amount,
        class: 3,
        step: 5,
        residual: random.within(1, 200),
        ..random.terms()
    };
    let mut record = open(terms).expect("accepted terms");
    for _ in 0..random.within(0, 3) {
        let amount = random.within(0, amount / 2);
        let item = Collateral {
            amount,
            ..random.collateral()
        };
        assert_eq!(add_collateral(&mut record, item), 0);
    }
    for _ in 0..random.within(2, 6) {
        let mut item = random.cover();
        shared(&mut item).amount = random.within(0, amount);
        assert_eq!(add_cover(&mut record, item), 0);
    }
    record
}

#[test]
fn any_order_of_accepted_items_gives_the_same_figures() {
    let mut random = Random::new(71);
    let (mut moved, mut interleaved) = (0, 0);
    for round in 0..ROUNDS {
        let record = if round % 2 == 0 {
            random.deal()
        } else {
            crowded_deal(&mut random)
        };
        let terms = record.terms;
        let items = items_of(&record);
        let order = order(&mut random, items.len());
        let other = in_order(&items, &order);
        let (first, second) = (report(&record), report_of(terms, &other));
        assert_eq!(figures(&first), figures(&second));

        let (first, second) = (said(&items, &first), said(&other, &second));
        for (place, &was) in order.iter().enumerate() {
            assert_eq!(second[place].0, first[was].0, "value, losses or ground");
        }
        let before = covered_by_weight(&items, &first, terms.edition);
        let after = covered_by_weight(&other, &second, terms.edition);
        let sums = |covered: &BTreeMap<u64, Vec<u64>>| -> Vec<(u64, u64)> {
            let sums = covered.iter().map(|(&at, all)| (at, all.iter().sum()));
            sums.collect()
        };
        assert_eq!(sums(&before), sums(&after));
        let mut differ = BTreeSet::new();
        for (place, &was) in order.iter().enumerate() {
            if second[place].1 != first[was].1 {
                let item = [other[place]];
                differ
                    .extend(covered_by_weight(&item, &second[place..], terms.edition).into_keys());
            }
        }
        for weight in &differ {
            assert!(before[weight].len() > 1, "a single item of its weight");
        }
        moved += u64::from(!differ.is_empty());
        let letters = other.iter().map(|item| matches!(item, Item::Pledge(_)));
        let letters: Vec<bool> = letters.collect();
        interleaved += u64::from(letters.windows(2).any(|pair| pair == [false, true]));
    }
    assert!(moved > ROUNDS / 20, "{moved}");
    assert!(interleaved > ROUNDS / 2, "{interleaved}");
}

/// Lends other equity in a repo, so that the exposure is raised by a quarter.
const LENDING: Terms = Terms {
    amount: 1_000,
    step: 5,
    kind: 1,
    interval: 6,
    lent_goods: 8,
    ..TERMS
};

fn cash(amount: u64) -> Collateral {
    Collateral { amount, ..CASH }
}

fn guarantee(amount: u64, class: u64, step: u64) -> Guarantee {
    Guarantee {
        amount,
        ..guarantee_of([class, step, 0])
    }
}

fn swap(amount: u64, class: u64, step: u64) -> Swap {
    swap_for(guarantee(amount, class, step))
}

#[test]
fn one_deal_in_every_order_has_one_answer() {
    // 1,250 - 100 - 200 = 950; 250 of it at 0, 700 at 20 by values of 400 and 360.
    let items = [
        pledge(cash(100)),
        pledge(cash(200)),
        cover(guarantee(400, 2, 1)),
        cover(swap(600, 3, 1)),
        cover(guarantee(250, 1, 1)),
    ];
    let mut portions = BTreeMap::new();
    let orders = every_order(items.len());
    assert_eq!(orders.iter().collect::<BTreeSet<_>>().len(), 120);
    for order in orders {
        let other = in_order(&items, &order);
        let report = report_of(LENDING, &other);
        assert_eq!(figures(&report), [950, 0, 140]);
        let said = said(&other, &report);
        let portion = |number| said[order.iter().position(|&one| one == number).unwrap()].1;
        assert_eq!(portion(4), 250);
        *portions.entry([portion(2), portion(3)]).or_insert(0) += 1;
    }
    assert_eq!(
        portions,
        BTreeMap::from([([400, 300], 60), ([340, 360], 60)])
    );
}

#[test]
fn portions_among_equal_weights_go_by_order() {
    let terms = Terms {
        amount: 1_000,
        step: 5,
        ..TERMS
    };
    // Swaps of 900 and 800 are cut to 540 and 480.
    for (one, two, forth, back) in [
        (
            cover(guarantee(600, 2, 1)),
            cover(guarantee(700, 3, 1)),
            [600, 400],
            [300, 700],
        ),
        (
            cover(guarantee(700, 2, 1)),
            cover(swap(900, 3, 1)),
            [700, 300],
            [460, 540],
        ),
        (
            cover(swap(900, 2, 1)),
            cover(swap(800, 3, 1)),
            [540, 460],
            [520, 480],
        ),
    ] {
        let first = report_of(terms, &[one, two]);
        let second = report_of(terms, &[two, one]);
        assert_eq!(figures(&first), [1_000, 0, 200]);
        assert_eq!(figures(&second), [1_000, 0, 200]);
        assert_eq!([first.guarantees[0].1, first.guarantees[1].1], forth);
        assert_eq!([second.guarantees[1].1, second.guarantees[0].1], back);
    }
    // Other weights go first wherever they stand: 40 and 60, weighted amount 8.
    let terms = Terms {
        amount: 100,
        ..TERMS
    };
    let (dear, cheap) = (cover(guarantee(80, 2, 1)), cover(guarantee(60, 1, 1)));
    for (items, portions) in [([dear, cheap], [40, 60]), ([cheap, dear], [60, 40])] {
        let report = report_of(terms, &items);
        assert_eq!(figures(&report), [100, 0, 8]);
        assert_eq!([report.guarantees[0].1, report.guarantees[1].1], portions);
    }
}

/// Refusal, E* or line, and weighted amount of a book of one deal.
fn answer(terms: &Terms, lines: &[String]) -> [u64; 3] {
    let book = header(terms.edition) + &terms_line(terms) + &lines.concat();
    let [_, refusal, exposure, weighted] = four_numbers(&book);
    [refusal, exposure, weighted]
}

/// A line behind a D line: mostly sound, at times spoilt or malformed.
fn random_line(random: &mut Random, edition: u64) -> String {
    let (letter, mut fields) = match random.within(0, 2) {
        0 => ('C', collateral_fields(&random.collateral()).to_vec()),
        1 => ('G', sent_guarantee(&random.guarantee(), edition)),
        _ => ('S', sent_swap(&random.swap(), edition)),
    };
    if random.chance(12) {
        random.spoil(&mut fields);
    }
    if random.chance(40) {
        fields.pop();
    }
    line(letter, &fields)
}

#[test]
fn lines_of_an_accepted_deal_have_one_answer_and_refused_ones_stay_refused() {
    let mut random = Random::new(72);
    let mut accepted = 0;
    // Refused deals with another number, with the same at another line, with 6 in
    // both orders, with 6 in one of them, with 11 in one of them.
    let mut refused = [0; 5];
    for _ in 0..ROUNDS {
        let terms = random.terms();
        let most = random.pick(&[3, 8, 24, 40]);
        let count = random.within(0, most);
        let mut lines: Vec<String> = (0..count)
            .map(|_| random_line(&mut random, terms.edition))
            .collect();
        let first = answer(&terms, &lines);
        shuffle(&mut random, &mut lines);
        let second = answer(&terms, &lines);
        let [numbers, places] = [[first[0], second[0]], [first[1], second[1]]];
        if first[0] == 0 {
            assert_eq!(first, second);
            accepted += 1;
            continue;
        }
        assert_ne!(second[0], 0);
        assert_eq!(second[2], 0);
        // But for 6, the first refused line is refused as it would be alone, and
        // no line before it is.
        let refused_at = second[1] as usize - 3;
        let alone = |line: &String| answer(&terms, std::slice::from_ref(line))[0];
        assert!(lines[..refused_at].iter().all(|line| alone(line) == 0));
        if second[0] != 6 {
            assert_eq!(alone(&lines[refused_at]), second[0]);
        }
        let cases = [
            numbers[0] != numbers[1],
            numbers[0] == numbers[1] && places[0] != places[1],
            numbers == [6, 6],
            numbers[0] != numbers[1] && numbers.contains(&6),
            numbers[0] != numbers[1] && numbers.contains(&11),
        ];
        for (count, case) in refused.iter_mut().zip(cases) {
            *count += u64::from(case);
        }
    }
    assert!(accepted > ROUNDS / 10, "{accepted}");
    assert!(
        refused.iter().all(|&count| count > ROUNDS / 200),
        "{refused:?}"
    );
}

#[test]
fn the_seventeenth_of_its_list_is_refused_in_any_order() {
    let mut random = Random::new(73);
    let mut lists = [0; 2];
    for _ in 0..2_000 {
        let terms = random.terms();
        let mut items = Vec::new();
        for _ in 0..random.within(0, 18) {
            items.push(Item::Pledge(random.collateral()));
        }
        for _ in 0..random.within(0, 18) {
            items.push(Item::Cover(random.cover()));
        }
        shuffle(&mut random, &mut items);
        let mut counts = [0, 0];
        let seventeenth = items.iter().position(|item| {
            let list = usize::from(matches!(item, Item::Cover(_)));
            counts[list] += 1;
            counts[list] > LIST_LIMIT
        });
        let lines: Vec<String> = items.iter().map(|item| item.line(terms.edition)).collect();
        let [refusal, line, _] = answer(&terms, &lines);
        match seventeenth {
            None => assert_eq!(refusal, 0),
            Some(place) => {
                assert_eq!([refusal, line], [6, place as u64 + 3]);
                lists[usize::from(matches!(items[place], Item::Cover(_)))] += 1;
            }
        }
    }
    assert!(lists.iter().all(|&count| count > 100), "{lists:?}");
}

#[test]
fn a_refused_d_line_is_answered_in_any_order() {
    let terms = Terms {
        amount: 1_000_000_000_001,
        ..TERMS
    };
    let wrong = Guarantee {
        class: 4,
        ..GUARANTEE
    };
    let lines = [
        collateral_line(&CASH),
        guarantee_line(&wrong, 1),
        "X\n".into(),
    ];
    for order in every_order(lines.len()) {
        assert_eq!(answer(&terms, &in_order(&lines, &order)), [1, 2, 0]);
    }
}

#[test]
fn the_first_refused_line_decides() {
    let over = collateral_line(&cash(1_000_000_000_001));
    let wrong_step = swap_line(&swap(100, 1, 7), 1);
    let unmet = guarantee_line(
        &Guarantee {
            direct: 3,
            ..GUARANTEE
        },
        1,
    );
    let malformed = "G\t1\n".to_string();
    let sound = collateral_line(&CASH);
    for (lines, expected) in [
        ([&over, &wrong_step, &unmet], [1, 3, 0]),
        ([&wrong_step, &unmet, &over], [3, 3, 0]),
        ([&unmet, &over, &wrong_step], [8, 3, 0]),
        ([&sound, &malformed, &over], [11, 4, 0]),
        ([&over, &malformed, &sound], [1, 3, 0]),
        ([&sound, &sound, &malformed], [11, 5, 0]),
        ([&malformed, &sound, &sound], [11, 3, 0]),
    ] {
        assert_eq!(answer(&TERMS, &lines.map(String::clone)), expected);
    }
    // A seventeenth item is 6 before its amount is looked at, the first is not.
    let mut lines = vec![sound; LIST_LIMIT];
    lines.push(over);
    assert_eq!(answer(&TERMS, &lines), [6, 19, 0]);
    lines.reverse();
    assert_eq!(answer(&TERMS, &lines), [1, 3, 0]);
}

/// Two amounts that add up to the one, 0 and small ones among them.
fn parts(random: &mut Random, amount: u64) -> [u64; 2] {
    let part = match random.within(0, 4) {
        0 => 0,
        1 => amount,
        2 => amount / 2,
        3 => amount.min(random.within(1, 20)),
        _ => random.within(0, amount),
    };
    [part, amount - part]
}

fn in_two(item: Collateral, amounts: [u64; 2]) -> [Collateral; 2] {
    assert_eq!(amounts[0] + amounts[1], item.amount);
    amounts.map(|amount| Collateral { amount, ..item })
}

/// Cash in the deal's currency and at least for its term. Some of it is left out.
fn plain_cash(random: &mut Random, terms: &Terms) -> Collateral {
    let residual = match random.within(0, 2) {
        0 => terms.residual,
        1 => (terms.residual + 1).min(100_000),
        _ => random.within(terms.residual, 100_000),
    };
    Collateral {
        amount: if random.chance(2) {
            random.within(0, terms.amount)
        } else {
            random.amount()
        },
        goods: 1,
        step: 0,
        life: 0,
        currency: terms.currency,
        residual,
        original: random.within(residual, 100_000),
        ..random.collateral()
    }
}

/// The items with one more anywhere.
fn put(random: &mut Random, items: &[Item], one: Collateral) -> Vec<Item> {
    let mut items = items.to_vec();
    let place = random.within(0, items.len() as u64) as usize;
    items.insert(place, Item::Pledge(one));
    items
}

#[test]
fn cash_in_two_changes_neither_figure() {
    let mut random = Random::new(74);
    let (mut told, mut empty, mut full) = (0, 0, 0);
    let mut grounds = BTreeMap::new();
    for round in 0..ROUNDS {
        let record = if round % 2 == 0 {
            random.deal()
        } else {
            crowded_deal(&mut random)
        };
        let terms = record.terms;
        let mut others = items_of(&record);
        let pledges = |items: &[Item]| {
            let pledges = items.iter().filter(|item| matches!(item, Item::Pledge(_)));
            pledges.count()
        };
        while pledges(&others) > LIST_LIMIT - 2 {
            others.remove(0);
        }
        let item = plain_cash(&mut random, &terms);
        let amounts = parts(&mut random, item.amount);
        let [one, two] = in_two(item, amounts);
        let whole_items = put(&mut random, &others, item);
        let split_items = put(&mut random, &others, one);
        let split_items = put(&mut random, &split_items, two);
        let first = report_of(terms, &whole_items);
        let second = report_of(terms, &split_items);
        assert_eq!(figures(&first), figures(&second));
        assert_eq!(first.guarantees, second.guarantees, "portions too");

        let whole_lines: Vec<_> = whole_items
            .iter()
            .map(|one| one.line(terms.edition))
            .collect();
        let split_lines: Vec<_> = split_items
            .iter()
            .map(|one| one.line(terms.edition))
            .collect();
        let expected = [0, first.exposure, first.weighted];
        assert_eq!(answer(&terms, &whole_lines), expected);
        assert_eq!(answer(&terms, &split_lines), expected);

        // Value, losses and what is left out of the parts are those of the whole.
        let alone = report_of(terms, &[Item::Pledge(item)]);
        let halves = report_of(terms, &[Item::Pledge(one), Item::Pledge(two)]);
        match alone.collateral[0] {
            Outcome::Valued(_) => {
                assert_eq!(alone.collateral[0], whole(item.amount));
                assert_eq!(halves.collateral[..2], amounts.map(whole));
            }
            Outcome::LeftOut { ground, amount } => {
                assert_eq!(amount, item.amount);
                assert_eq!(
                    halves.collateral[..2],
                    amounts.map(|part| left_out(ground, part))
                );
                *grounds.entry(ground).or_insert(0) += 1;
            }
        }
        told += u64::from(figures(&report_of(terms, &others)) != figures(&first));
        empty += u64::from(amounts.contains(&0));
        full += u64::from(pledges(&split_items) == LIST_LIMIT);
    }
    assert!(told > ROUNDS / 4, "{told}");
    assert!(empty > ROUNDS / 4, "{empty}");
    assert!(full > ROUNDS / 100, "{full}");
    assert_eq!(grounds.keys().collect::<Vec<_>>(), [&21, &22, &23]);
    assert!(
        grounds.values().all(|&count| count > ROUNDS / 50),
        "{grounds:?}"
    );
}

#[test]
fn cash_in_two_needs_room_for_both() {
    let [one, two] = in_two(cash(1_000), [0, 1_000]);
    for edition in EDITIONS {
        let terms = Terms { edition, ..TERMS };
        // Fourteen others and the item are fifteen: two parts fit.
        let mut items = vec![Item::Pledge(cash(7)); 14];
        items.push(Item::Pledge(cash(1_000)));
        let before = report_of(terms, &items);
        items.pop();
        items.extend([Item::Pledge(one), Item::Pledge(two)]);
        let mut record = deal_of(terms, &items);
        assert_eq!(figures(&report(&record)), figures(&before));
        assert_eq!(before.exposure, 1_000_000 - 14 * 7 - 1_000);

        // Sixteen with the item whole: one part more is refused, a part of 0 too.
        let unchanged = record.clone();
        for more in [one, two, cash(1)] {
            assert_eq!(add_collateral(&mut record, more), 6);
            assert_eq!(record, unchanged);
        }
        items.push(Item::Pledge(cash(7)));
        for _ in 0..items.len() {
            items.rotate_left(1);
            let lines: Vec<String> = items.iter().map(|item| item.line(edition)).collect();
            assert_eq!(answer(&terms, &lines), [6, 19, 0]);
        }
    }
}

#[test]
fn parts_may_add_up_to_more_than_an_item_may_have() {
    // Not an item in two: the whole would be refused.
    let limit = 1_000_000_000_000;
    let mut record = open(TERMS).expect("accepted terms");
    assert_eq!(add_collateral(&mut record, cash(limit + 1)), 1);
    let report = report_of(TERMS, &[pledge(cash(limit)), pledge(cash(1))]);
    assert_eq!(figures(&report), [0, 0, 0]);
    // The limit itself in two.
    let terms = Terms {
        amount: limit,
        ..TERMS
    };
    for part in [0, 1, limit / 2, limit - 1, limit] {
        let [one, two] = in_two(cash(limit), [part, limit - part]);
        assert_eq!(
            figures(&report_of(terms, &[pledge(one), pledge(two)])),
            [0; 3]
        );
    }
}

/// What splitting an item of collateral adds to E* and to the weighted amount.
fn added_by_splitting(
    terms: Terms,
    others: &[Item],
    item: Collateral,
    amounts: [u64; 2],
) -> [u64; 2] {
    let with = |parts: &[Collateral]| {
        let mut items: Vec<Item> = parts.iter().map(|part| Item::Pledge(*part)).collect();
        items.extend(others);
        report_of(terms, &items)
    };
    let (first, second) = (with(&[item]), with(&in_two(item, amounts)));
    [
        second
            .exposure
            .checked_sub(first.exposure)
            .expect("E* never falls"),
        second
            .weighted
            .checked_sub(first.weighted)
            .expect("nor does the weighted amount"),
    ]
}

#[test]
fn other_collateral_in_two_may_cost_a_unit_for_each_rounding() {
    let mut random = Random::new(75);
    // By what is added to E*, for cash in another currency, for cash with a
    // mismatch, for cash with both and for other goods.
    let mut costs = [[0; 3]; 4];
    let mut weighted_moved = 0;
    for _ in 0..2 * ROUNDS {
        let terms = Terms {
            amount: random.within(1, 1_000_000),
            ..random.terms()
        };
        let goods = random.chance(2);
        let item = if goods {
            random.collateral()
        } else {
            let currency = random.pick(&[978, 840]);
            let residual = random.within(1, 2_000);
            Collateral {
                currency,
                residual,
                original: residual.max(360),
                ..plain_cash(&mut random, &terms)
            }
        };
        let item = Collateral {
            amount: random.within(0, terms.amount),
            ..item
        };
        let amounts = parts(&mut random, item.amount);
        let others = match random.chance(2) {
            true => vec![Item::Cover(random.cover())],
            false => vec![Item::Pledge(random.collateral())],
        };
        let [added, weighted] = added_by_splitting(terms, &others, item, amounts);
        let foreign = item.currency != terms.currency;
        let short = item.residual < terms.residual;
        let kind = match (item.goods, foreign, short) {
            (1, false, false) => {
                assert_eq!([added, weighted], [0, 0]);
                continue;
            }
            (1, true, false) => 0,
            (1, false, true) => 1,
            (1, true, true) => 2,
            _ => 3,
        };
        let haircuts = u64::from(item.goods != 1 || foreign);
        assert!(added <= haircuts + u64::from(short), "a unit for each step");
        costs[kind][added as usize] += 1;
        weighted_moved += u64::from(weighted > 0);
    }
    let [foreign, short, both, other] = costs;
    for seen in [&foreign[..2], &short[..2], &both[..], &other[..]] {
        assert!(seen.iter().all(|&count| count > 5), "{costs:?}");
    }
    assert!(weighted_moved > ROUNDS / 20, "{weighted_moved}");
}

#[test]
fn what_splitting_costs_by_hand() {
    let market = Terms { kind: 2, ..TERMS };
    let foreign = |item| Collateral {
        currency: 840,
        ..item
    };
    let lasting = |residual, item| Collateral { residual, ..item };
    let gold = |amount| pledged([9, 0, 0, 0], amount);
    for (item, amounts, added) in [
        // 92 percent: 23, and 11 with 11; 920, and 460 twice.
        (foreign(cash(25)), [12, 13], 1),
        (foreign(cash(25)), [0, 25], 0),
        (foreign(cash(1_000)), [500, 500], 0),
        (foreign(cash(1_000)), [1, 999], 1),
        // 9 / 19: 473, and 236 twice; 0 with 473.
        (lasting(900, cash(1_000)), [500, 500], 1),
        (lasting(900, cash(1_000)), [1, 999], 0),
        // 1,709 / 1,710: a day is enough.
        (lasting(1_799, cash(1_000)), [500, 500], 1),
        // 3.68 is 3, then 2; twice 1.84 is 1, then 0.
        (lasting(1_799, foreign(cash(4))), [2, 2], 2),
        // 85 percent: 425, and 212 twice.
        (gold(500), [250, 250], 1),
        (cash(1_000), [333, 667], 0),
    ] {
        let expected = [added, added];
        assert_eq!(
            added_by_splitting(market, &[], item, amounts),
            expected,
            "{item:?}"
        );
    }
    // T and t are both 1,800: a mismatch that takes nothing.
    let long = Terms {
        residual: 3_600,
        ..market
    };
    let item = Collateral {
        original: 3_600,
        ..cash(1_000)
    };
    assert_eq!(added_by_splitting(long, &[], item, [1, 999]), [0, 0]);
}

#[test]
fn a_swap_in_two_is_cut_in_each_part() {
    // 60 percent of 10,000 for the whole; for two parts of 10,000 twice that.
    let terms = Terms {
        amount: 10_000,
        ..TERMS
    };
    let whole = report_of(terms, &[cover(swap(20_000, 1, 1))]);
    assert_eq!(figures(&whole), [10_000, 4_000, 4_000]);
    let split = report_of(terms, &[cover(swap(10_000, 1, 1)); 2]);
    assert_eq!(figures(&split), [10_000, 0, 0]);
    // 2.4 is 2; 0.6 and 1.8 are 0 and 1.
    let whole = report_of(terms, &[cover(swap(4, 1, 1))]);
    assert_eq!(whole.weighted, 9_998);
    let split = report_of(terms, &[cover(swap(1, 1, 1)), cover(swap(3, 1, 1))]);
    assert_eq!(split.weighted, 9_999);
}
