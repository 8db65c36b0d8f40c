//! The refusals of opening, adding and reporting at their edges.

mod common;

use common::*;
use reference::{
    add_collateral, add_guarantee, add_swap, open, report, Collateral, Cover, Guarantee, Outcome,
    Record, Terms,
};

fn opening(terms: Terms) -> u64 {
    open(terms).err().unwrap_or(0)
}

/// Refusal of adding to a deal with free places, which it must not change.
fn adding_collateral(item: Collateral) -> u64 {
    let before = deal(TERMS, &[CASH], &[GUARANTEE]);
    let mut record = before.clone();
    let refusal = add_collateral(&mut record, item);
    if refusal == 0 {
        assert_eq!(record, deal(TERMS, &[CASH, item], &[GUARANTEE]));
    } else {
        assert_eq!(record, before);
    }
    refusal
}

fn adding_guarantee(item: Guarantee) -> u64 {
    let before = deal(TERMS, &[CASH], &[GUARANTEE]);
    let mut record = before.clone();
    let refusal = add_guarantee(&mut record, item);
    if refusal == 0 {
        assert_eq!(record, deal(TERMS, &[CASH], &[GUARANTEE, item]));
    } else {
        assert_eq!(record, before);
    }
    refusal
}

/// The expected refusals, read off field by field: index of the field, number
/// sent there, refusal.
type Edges = &'static [(usize, u64, u64)];

fn changed<const N: usize>(
    mut fields: [u64; N],
    (place, number, _): &(usize, u64, u64),
) -> [u64; N] {
    fields[*place] = *number;
    fields
}

fn assert_opening(sound: &Terms, edges: Edges) {
    for edge in edges {
        let terms = Terms::from(changed(terms_fields(sound), edge));
        assert_eq!(opening(terms), edge.2, "{edge:?} {sound:?}");
    }
}

#[test]
fn edges_of_opening_a_loan() {
    let edges: Edges = &[
        (0, 0, 0),
        (0, 1_000_000_000_000, 0),
        (0, 1_000_000_000_001, 1),
        (0, u64::MAX, 1),
        (1, 0, 2),
        (1, 1, 0),
        (1, 4, 0),
        (1, 5, 2),
        (1, u64::MAX, 2),
        (2, 6, 0),
        (2, 7, 3),
        (2, u64::MAX, 3),
        (4, 0, 4),
        (4, 1, 0),
        (4, 999, 0),
        (4, 1_000, 4),
        (5, 0, 2),
        (5, 1, 0),
        (5, 3, 0),
        (5, 4, 2),
        (8, 0, 2),
        (8, 2, 5),
        (8, 7, 0),
        (8, 8, 0),
        (8, 9, 0),
        (8, 10, 2),
        (9, 1, 3),
        (10, 1, 5),
    ];
    assert_opening(&TERMS, edges);
}

#[test]
fn edges_of_edition_and_sovereign_step() {
    let edges: Edges = &[
        (3, 0, 0),
        (3, 6, 0),
        (3, 7, 3),
        (3, u64::MAX, 3),
        (11, 0, 2),
        (11, 1, 0),
        (11, 2, 0),
        (11, 3, 0),
        (11, 4, 2),
        (11, u64::MAX, 2),
    ];
    assert_opening(&TERMS, edges);
}

#[test]
fn edges_of_interval_and_term() {
    let edges: Edges = &[
        (6, 0, 5),
        (6, 1, 0),
        (6, 250, 0),
        (6, 251, 5),
        (7, 0, 5),
        (7, 1, 0),
        (7, 100_000, 0),
        (7, 100_001, 5),
        (7, u64::MAX, 5),
    ];
    assert_opening(&TERMS, edges);
}

#[test]
fn edges_of_opening_with_debt_lent() {
    for lent_goods in 2..=6 {
        let bond = Terms {
            lent_goods,
            lent_step: 1,
            lent_life: 1,
            ..TERMS
        };
        let edges: Edges = &[
            (9, 0, 0),
            (9, 6, 0),
            (9, 7, 3),
            (10, 0, 5),
            (10, 100_000, 0),
            (10, 100_001, 5),
            (10, u64::MAX, 5),
        ];
        assert_opening(&bond, edges);
    }
}

#[test]
fn retail_has_step_0() {
    let retail = |step| Terms {
        class: 4,
        step,
        ..TERMS
    };
    assert_eq!(opening(retail(0)), 0);
    assert_eq!(opening(retail(1)), 3);
    assert_eq!(opening(retail(6)), 3);
}

#[test]
fn opening_gives_the_first_refusal() {
    let mut fields = [u64::MAX; 12];
    for (place, sound, refusal) in [
        (0, 0, 1),
        (11, 1, 2),
        (1, 4, 2),
        (5, 1, 2),
        (8, 1, 2),
        (2, 0, 3),
        (3, 0, 3),
        (9, 0, 3),
        (4, 978, 4),
        (6, 1, 5),
        (7, 1, 5),
        (10, 0, 5),
    ] {
        assert_eq!(opening(Terms::from(fields)), refusal, "field {place}");
        fields[place] = sound;
    }
    assert_eq!(opening(Terms::from(fields)), 0);
}

#[test]
fn a_new_deal_has_lists_of_zeros() {
    let expected = Record {
        terms: TERMS,
        collateral_count: 0,
        collateral: [Collateral::default(); 16],
        guarantee_count: 0,
        guarantees: [Cover::default(); 16],
    };
    assert_eq!(open(TERMS), Ok(expected));
}

#[test]
fn edges_of_adding_collateral() {
    let edges: Edges = &[
        (0, 0, 0),
        (0, 1_000_000_000_000, 0),
        (0, 1_000_000_000_001, 1),
        (1, 0, 2),
        (1, 2, 5),
        (1, 9, 0),
        (1, 10, 2),
        (2, 1, 3),
        (3, 1, 5),
        (4, 0, 4),
        (4, 1, 0),
        (4, 999, 0),
        (4, 1_000, 4),
        (5, 0, 5),
        (5, 1, 0),
        (5, 1_801, 7),
        (5, 100_000, 7),
        (5, 100_001, 5),
        (6, 0, 5),
        (6, 1_799, 7),
        (6, 100_000, 0),
        (6, 100_001, 5),
        (7, 0, 0),
        (7, 2, 8),
        (8, 0, 0),
        (8, 2, 8),
        (9, 0, 0),
        (9, 2, 8),
        (10, 1, 0),
        (10, 2, 8),
        (10, u64::MAX, 8),
    ];
    for edge in edges {
        let item = Collateral::from(changed(collateral_fields(&CASH), edge));
        assert_eq!(adding_collateral(item), edge.2, "{edge:?}");
    }
}

#[test]
fn edges_of_adding_debt() {
    for goods in 2..=6 {
        let bond = Collateral {
            goods,
            step: 6,
            life: 100_000,
            ..CASH
        };
        assert_eq!(adding_collateral(bond), 0);
        assert_eq!(adding_collateral(Collateral { step: 7, ..bond }), 3);
        assert_eq!(adding_collateral(Collateral { life: 0, ..bond }), 5);
        assert_eq!(
            adding_collateral(Collateral {
                life: 100_001,
                ..bond
            }),
            5
        );
    }
}

#[test]
fn adding_collateral_gives_the_first_refusal() {
    let mut fields = [u64::MAX; 11];
    fields[6] = 0;
    for (place, sound, refusal) in [
        (0, 0, 1),
        (1, 1, 2),
        (2, 0, 3),
        (4, 978, 4),
        (3, 0, 5),
        (6, 5, 5),
        (5, 6, 5),
        (5, 5, 7),
        (7, 1, 8),
        (8, 0, 8),
        (9, 1, 8),
        (10, 1, 8),
    ] {
        let item = Collateral::from(fields);
        assert_eq!(adding_collateral(item), refusal, "field {place}");
        fields[place] = sound;
    }
    assert_eq!(adding_collateral(Collateral::from(fields)), 0);
}

#[test]
fn edges_of_adding_a_guarantee() {
    let edges: Edges = &[
        (0, 0, 0),
        (0, 1_000_000_000_000, 0),
        (0, 1_000_000_000_001, 1),
        (1, 0, 2),
        (1, 3, 0),
        (1, 4, 2),
        (2, 0, 0),
        (2, 6, 0),
        (2, 7, 3),
        (3, 1, 3),
        (3, 7, 3),
        (4, 0, 4),
        (4, 999, 0),
        (4, 1_000, 4),
        (5, 0, 5),
        (5, 1, 0),
        (5, 1_801, 7),
        (5, 100_000, 7),
        (5, 100_001, 5),
        (6, 0, 5),
        (6, 1_799, 7),
        (6, 100_000, 0),
        (6, 100_001, 5),
        (7, 0, 0),
        (7, 2, 8),
        (8, 0, 0),
        (8, 2, 8),
        (9, 0, 0),
        (9, 2, 8),
    ];
    for edge in edges {
        let item = Guarantee::from(changed(guarantee_fields(&GUARANTEE), edge));
        assert_eq!(adding_guarantee(item), edge.2, "{edge:?}");
    }
}

#[test]
fn adding_a_guarantee_gives_the_first_refusal() {
    let mut fields = [u64::MAX; 10];
    fields[6] = 0;
    for (place, sound, refusal) in [
        (0, 0, 1),
        (1, 2, 2),
        (2, 0, 3),
        (3, 6, 3),
        (4, 978, 4),
        (6, 5, 5),
        (5, 6, 5),
        (5, 5, 7),
        (7, 1, 8),
        (8, 0, 8),
        (9, 1, 8),
    ] {
        let item = Guarantee::from(fields);
        assert_eq!(adding_guarantee(item), refusal, "field {place}");
        fields[place] = sound;
    }
    assert_eq!(adding_guarantee(Guarantee::from(fields)), 0);
}

#[test]
fn a_full_list_comes_before_the_items_own_refusals() {
    let spoilt = Collateral {
        amount: u64::MAX,
        ..CASH
    };
    let mut record = deal(TERMS, &[CASH; 15], &[]);
    assert_eq!(add_collateral(&mut record, spoilt), 1);
    assert_eq!(add_collateral(&mut record, CASH), 0);
    let full = record.clone();
    assert_eq!(add_collateral(&mut record, CASH), 6);
    assert_eq!(add_collateral(&mut record, spoilt), 6);
    assert_eq!(record, full);

    let spoilt = Guarantee {
        amount: u64::MAX,
        ..GUARANTEE
    };
    for _ in 0..16 {
        assert_eq!(add_guarantee(&mut record, GUARANTEE), 0);
    }
    let full = record.clone();
    assert_eq!(add_guarantee(&mut record, GUARANTEE), 6);
    assert_eq!(add_guarantee(&mut record, spoilt), 6);
    assert_eq!(record, full);
}

#[test]
fn adding_keeps_what_stands_past_the_counts() {
    let spoilt = Collateral {
        amount: u64::MAX,
        ..CASH
    };
    let mut record = open(TERMS).expect("accepted terms");
    record.collateral = [spoilt; 16];
    let mut expected = record.clone();
    assert_eq!(add_collateral(&mut record, CASH), 0);
    expected.collateral[0] = CASH;
    expected.collateral_count = 1;
    assert_eq!(record, expected);
}

/// Every refusing call on a record that 40 falls on.
fn is_40(record: &Record) -> bool {
    let mut same = record.clone();
    let added = add_collateral(&mut same, CASH);
    let guaranteed = add_guarantee(&mut same, GUARANTEE);
    let swapped = add_swap(&mut same, SWAP);
    let reply = report(&same);
    let refused = [added, guaranteed, swapped, reply.refusal] == [40; 4];
    if refused {
        assert_eq!(&same, record);
        assert_eq!(reply.collateral, [Outcome::default(); 16]);
        assert_eq!(reply.guarantees, [(Outcome::default(), 0); 16]);
        assert_eq!([reply.exposure, reply.rest, reply.weighted], [0; 3]);
    } else {
        assert_ne!(added, 40);
        assert_ne!(guaranteed, 40);
        assert_ne!(swapped, 40);
        assert_eq!(reply.refusal, 0);
    }
    refused
}

#[test]
fn counts_above_sixteen_are_40() {
    let sound = deal(TERMS, &[CASH; 16], &[GUARANTEE; 16]);
    assert!(!is_40(&sound));
    for count in [17, 255, 1 << 32, (1 << 32) + 1, u64::MAX] {
        let mut record = sound.clone();
        record.collateral_count = count;
        assert!(is_40(&record));
        let mut record = sound.clone();
        record.guarantee_count = count;
        assert!(is_40(&record));
    }
}

#[test]
fn counted_fields_that_would_be_refused_are_40() {
    let sound = deal(TERMS, &[CASH; 3], &[GUARANTEE; 3]);
    for place in 0..12 {
        let mut record = sound.clone();
        record.terms = Terms::from(changed(terms_fields(&TERMS), &(place, u64::MAX, 0)));
        assert!(is_40(&record), "terms {place}");
    }
    for item in 0..4 {
        for place in 0..11 {
            let mut record = sound.clone();
            let spoilt = changed(collateral_fields(&CASH), &(place, u64::MAX, 0));
            record.collateral[item] = Collateral::from(spoilt);
            assert_eq!(is_40(&record), item < 3, "collateral {item} {place}");
        }
        for place in 0..10 {
            let mut record = sound.clone();
            let spoilt = changed(guarantee_fields(&GUARANTEE), &(place, u64::MAX, 0));
            record.guarantees[item] = Guarantee::from(spoilt).into();
            assert_eq!(is_40(&record), item < 3, "guarantee {item} {place}");
        }
    }
    let mut record = sound.clone();
    record.collateral[2].original = 1_799;
    assert!(is_40(&record), "residual above original");
    let mut record = sound.clone();
    shared(&mut record.guarantees[0]).original = 1_799;
    assert!(is_40(&record), "residual above original");
}

#[test]
fn an_empty_record_is_40() {
    let record = Record {
        terms: Terms::default(),
        collateral_count: 0,
        collateral: [Collateral::default(); 16],
        guarantee_count: 0,
        guarantees: [Cover::default(); 16],
    };
    assert!(is_40(&record));
}

#[test]
fn the_largest_numbers_everywhere_are_40() {
    let record = Record {
        terms: Terms::from([u64::MAX; 12]),
        collateral_count: u64::MAX,
        collateral: [Collateral::from([u64::MAX; 11]); 16],
        guarantee_count: u64::MAX,
        guarantees: [Guarantee::from([u64::MAX; 10]).into(); 16],
    };
    assert!(is_40(&record));
}
