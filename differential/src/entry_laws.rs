//! What must hold between the report of a deal and those of the same items in another order or
//! with one of them split, whatever either side says by itself.

use hadlephoga::{HeldGuarantee, Record, COVER_WIDTH, ITEMS, OUTCOME_WIDTH, REPORT_LENGTH};

use crate::asked::Reported;
use crate::weighing::{own_weight, weight};

/// Of collateral and of guarantees: the first number of the first place, and numbers of one.
const LISTS: [(usize, usize); 2] = [(1, OUTCOME_WIDTH), (1 + ITEMS * OUTCOME_WIDTH, COVER_WIDTH)];
/// E*, the rest and the weighted amount.
const FIGURES: [usize; 3] = [0, REPORT_LENGTH - 2, REPORT_LENGTH - 1];
pub const EXPOSURE: usize = FIGURES[0];
pub const WEIGHTED_AMOUNT: usize = FIGURES[2];

/// The most that weighs.
const HEAVIEST: usize = 150;

/// Value and ground of an item, its losses and the amount left out, which come from the item
/// alone.
fn outcome(report: &Reported, list: usize, place: usize) -> [u64; OUTCOME_WIDTH] {
    let (first, width) = LISTS[list];
    let numbers = &report.1[first + place * width..];
    std::array::from_fn(|number| numbers[number])
}

pub fn portion(report: &Reported, place: usize) -> u64 {
    let (first, width) = LISTS[1];
    report.1[first + place * width + OUTCOME_WIDTH]
}

pub fn ground(report: &Reported, place: usize) -> u64 {
    outcome(report, 0, place)[1]
}

/// In percent, as the provider of a deal of this edition.
pub fn provider_weight(edition: u64, item: &HeldGuarantee) -> u64 {
    match edition {
        1 => own_weight(edition, item.class, item.step),
        _ => weight(edition, [item.class, item.step, item.sovereign_step]),
    }
}

/// What another order changes that it must not, the first of it; None where it is right. The
/// places are those that the items of either list had before.
pub fn wrong_order(
    record: &Record,
    places: &[Vec<usize>; 2],
    [before, after]: [&Reported; 2],
) -> Option<String> {
    let moved = |list: usize| {
        let mut items = places[list].iter().enumerate();
        items.find(|(to, from)| outcome(after, list, *to) != outcome(before, list, **from))
    };
    wrong_figures([before, after])
        .or_else(|| moved(0).map(|(to, _)| format!("collateral {} is another", to + 1)))
        .or_else(|| moved(1).map(|(to, _)| format!("guarantee {} is another", to + 1)))
        .or_else(|| wrong_portions(record, &places[1], [before, after]))
}

fn wrong_figures([before, after]: [&Reported; 2]) -> Option<String> {
    const NAMES: [&str; 3] = ["E*", "the rest", "the weighted amount"];
    if after.0 != before.0 {
        return Some(String::from("the refusal is another"));
    }
    let mut figures = FIGURES.iter().zip(NAMES);
    figures.find_map(|(of, name)| (before.1[*of] != after.1[*of]).then(|| format!("{name} moves")))
}

/// All portions of one weight together stay, so one of a weight that no other has does too.
fn wrong_portions(
    record: &Record,
    places: &[usize],
    [before, after]: [&Reported; 2],
) -> Option<String> {
    let mut moved = [0i128; HEAVIEST + 1];
    for (to, from) in places.iter().enumerate() {
        let weight = provider_weight(record.terms.edition, &record.guarantees[*from]);
        let change = i128::from(portion(after, to)) - i128::from(portion(before, *from));
        moved[weight as usize] += change;
    }
    let weight = moved.iter().position(|change| *change != 0)?;
    Some(format!("the portions that weigh {weight} percent move"))
}

/// What splitting one item of collateral in two changes that it must not. The places are those
/// that the items had before, that of the split one twice.
pub fn wrong_split(
    [split, guarantees]: [usize; 2],
    places: &[usize],
    [before, after]: [&Reported; 2],
) -> Option<String> {
    if let Some(wrong) = wrong_figures([before, after]) {
        return Some(wrong);
    }
    let mut sum = [0u128; OUTCOME_WIDTH];
    for (to, from) in places.iter().enumerate() {
        let (now, whole) = (outcome(after, 0, to), outcome(before, 0, *from));
        // Each part has the ground of the whole.
        if (*from != split && now != whole) || now[1] != whole[1] {
            return Some(format!("collateral {} is another", to + 1));
        }
        if *from == split {
            sum = std::array::from_fn(|number| sum[number] + u128::from(now[number]));
        }
    }
    let mut whole = outcome(before, 0, split).map(u128::from);
    whole[1] *= 2;
    if sum != whole {
        return Some(String::from("the parts do not make up the whole"));
    }
    let covers = |report: &Reported| {
        let covers =
            (0..guarantees).map(|place| (outcome(report, 1, place), portion(report, place)));
        Vec::from_iter(covers)
    };
    (covers(before) != covers(after)).then(|| String::from("a guarantee is another"))
}

/// What splitting an item that a haircut or a mismatch takes something of changes that it must
/// not. Each of the two steps is rounded down once more, so the value falls by two at most.
pub fn wrong_other_split([before, after]: [&Reported; 2]) -> Option<&'static str> {
    let [exposure, weighted] =
        [EXPOSURE, WEIGHTED_AMOUNT].map(|of| after.1[of].checked_sub(before.1[of]));
    match (before.0 == after.0, exposure, weighted) {
        (true, Some(0..=2), Some(_)) => None,
        (false, ..) => Some("the refusal is another"),
        _ => Some("a figure falls, or E* rises by more than rounding"),
    }
}

#[cfg(test)]
mod tests {
    use super::*;
    use crate::heading::EDITIONS;
    use crate::held::GUARANTEE;
    use crate::parties::of_classes;
    use crate::sides::{Side, SIDES};
    use hadlephoga::{Collateral, Terms};

    #[test]
    fn weights_are_those_of_reports() {
        for (edition, party) in of_classes(1..=3).flat_map(|of| EDITIONS.map(|by| (by, of))) {
            let [class, step, sovereign] = party;
            let sent = [100, class, step, sovereign, 978, 90, 90, 1, 1, 1, GUARANTEE];
            let item = HeldGuarantee::from_numbers(&sent);
            let terms = Terms::from_numbers(&[100, 1, 6, 0, 978, 3, 1, 90, 1, 0, 0, edition]);
            let (_, report) = Side::Proved.report(&Record::new(terms, &[], &[item]).to_numbers());
            // Of who does not count, and of who weighs as much as the counterparty.
            let counts = portion(&(0, report), 0) == 100;
            assert!(!counts || report[WEIGHTED_AMOUNT] == provider_weight(edition, &item));
        }
    }

    /// A loan of 1,000 against cash of 100 and 60 and bank debt, under three guarantees, two of
    /// which weigh the same.
    fn record() -> Record {
        let terms = Terms::from_numbers(&[1000, 3, 6, 0, 978, 3, 1, 90, 1, 0, 0, 2]);
        let pledge = |amount, goods: [u64; 3]| {
            let [goods, step, life] = goods;
            Collateral::from_numbers(&[amount, goods, step, life, 978, 90, 90, 1, 1, 1, 0])
        };
        let guarantee = |amount, class, step| {
            HeldGuarantee::from_numbers(&[amount, class, step, 0, 978, 90, 90, 1, 1, 1, 0])
        };
        Record::new(
            terms,
            &[
                pledge(100, [1, 0, 0]),
                pledge(60, [1, 0, 0]),
                pledge(77, [4, 2, 90]),
            ],
            &[
                guarantee(500, 2, 1),
                guarantee(400, 1, 2),
                guarantee(30, 1, 1),
            ],
        )
    }

    /// The record with its lists in this order.
    fn ordered(record: &Record, places: &[Vec<usize>; 2]) -> Record {
        let collateral = places[0].iter().map(|place| record.collateral[*place]);
        let guarantees = places[1].iter().map(|place| record.guarantees[*place]);
        let lists = (Vec::from_iter(collateral), Vec::from_iter(guarantees));
        Record::new(record.terms, &lists.0, &lists.1)
    }

    #[test]
    fn another_order_is_held_to_every_number() {
        let record = record();
        let places = [vec![2, 0, 1], vec![1, 2, 0]];
        for side in SIDES {
            let before = side.report(&record.to_numbers());
            let after = side.report(&ordered(&record, &places).to_numbers());
            let wrong = |after: &Reported| wrong_order(&record, &places, [&before, after]);
            assert_eq!(wrong(&after), None);
            // The two that weigh the same have other portions.
            assert_ne!(
                [portion(&before, 0), portion(&before, 1)],
                [portion(&after, 2), portion(&after, 0)]
            );
            assert_eq!(portion(&before, 2), portion(&after, 1));
            let (first, width) = LISTS[1];
            let ends = [1 + 3 * OUTCOME_WIDTH, first + 3 * width];
            let counted = (0..ends[0]).chain(first..ends[1]).chain(FIGURES);
            for place in counted {
                let mut spoiled = after;
                spoiled.1[place] += 1;
                assert!(wrong(&spoiled).is_some(), "{place}");
            }
            assert!(wrong(&(40, after.1)).is_some());
        }
    }

    #[test]
    fn portions_move_among_equal_weights_alone() {
        let record = record();
        let places = [vec![0, 1, 2], vec![0, 1, 2]];
        let before = Side::Proved.report(&record.to_numbers());
        let moved = |from: usize, to: usize| {
            let mut after = before;
            after.1[LISTS[1].0 + from * COVER_WIDTH + OUTCOME_WIDTH] -= 1;
            after.1[LISTS[1].0 + to * COVER_WIDTH + OUTCOME_WIDTH] += 1;
            wrong_order(&record, &places, [&before, &after])
        };
        assert_eq!(moved(0, 1), None);
        let heavier = moved(2, 0).expect("another weight");
        assert_eq!(heavier, "the portions that weigh 0 percent move");
    }

    /// The first cash item in two, behind one another or around the rest.
    #[test]
    fn a_split_is_held_to_every_number() {
        let record = record();
        for (places, amounts) in [([0, 0, 1, 2], [1, 99]), ([0, 1, 2, 0], [0, 100])] {
            let mut parts = amounts.into_iter();
            let items = places.map(|from| match from {
                0 => Collateral {
                    amount: parts.next().unwrap_or(0),
                    ..record.collateral[0]
                },
                from => record.collateral[from],
            });
            let split = Record::new(record.terms, &items, &record.guarantees[..3]);
            let before = Side::Proved.report(&record.to_numbers());
            let after = Side::Proved.report(&split.to_numbers());
            let wrong = |after: &Reported| wrong_split([0, 3], &places, [&before, after]);
            assert_eq!(wrong(&after), None);
            let (first, width) = LISTS[1];
            let ends = [1 + 4 * OUTCOME_WIDTH, first + 3 * width];
            for place in (0..ends[0]).chain(first..ends[1]).chain(FIGURES) {
                let mut spoiled = after;
                spoiled.1[place] += 1;
                assert!(wrong(&spoiled).is_some(), "{place}");
            }
            assert!(wrong(&(40, after.1)).is_some());
        }
    }

    #[test]
    fn other_splits_round_by_two_at_most() {
        let before = Side::Proved.report(&record().to_numbers());
        let after = |exposure: u64, weighted: u64| {
            let mut after = before;
            after.1[EXPOSURE] = exposure;
            after.1[WEIGHTED_AMOUNT] = weighted;
            wrong_other_split([&before, &after])
        };
        let (exposure, weighted) = (before.1[EXPOSURE], before.1[WEIGHTED_AMOUNT]);
        assert_eq!(after(exposure, weighted), None);
        assert_eq!(after(exposure + 2, weighted + 3), None);
        assert!(after(exposure + 3, weighted + 3).is_some());
        assert!(after(exposure - 1, weighted).is_some());
        assert!(after(exposure, weighted - 1).is_some());
        assert!(wrong_other_split([&before, &(40, before.1)]).is_some());
    }
}
