//! The weight of a netting set's counterparty, in percent, by the tables of 2019 and of 2023.

/// A party: class, step and sovereign's step.
pub type Party = [u64; 3];

pub const BANK: u64 = 2;
pub const CORPORATE: u64 = 3;
const RETAIL_WEIGHT: u64 = 75;

/// By class 1 to 3, and by step from 0.
const WEIGHTS: [[u64; 7]; 3] = [
    [100, 0, 20, 50, 100, 100, 150],
    [50, 20, 50, 50, 100, 100, 150],
    [100, 20, 50, 100, 100, 150, 150],
];

/// By class and step alone.
pub fn own_weight(table: u64, class: u64, step: u64) -> u64 {
    match (table, class, step) {
        (_, 4, _) => RETAIL_WEIGHT,
        (3, BANK, 0) => 150,
        (3, BANK, 2) => 30,
        (3, CORPORATE, 3) => 75,
        _ => WEIGHTS[class as usize - 1][step as usize],
    }
}

/// An unrated bank or corporate weighs no less than its sovereign.
pub fn is_floored([class, step, _]: Party) -> bool {
    step == 0 && [BANK, CORPORATE].contains(&class)
}

pub fn sovereign_weight([_, _, sovereign]: Party) -> u64 {
    WEIGHTS[0][sovereign as usize]
}

pub fn weight(table: u64, party: Party) -> u64 {
    let own = own_weight(table, party[0], party[1]);
    match is_floored(party) {
        true => own.max(sovereign_weight(party)),
        false => own,
    }
}

#[cfg(test)]
mod tests {
    use super::*;
    use crate::parties::of_classes;
    use hadlephoga::{Record, Terms};

    /// What the library's report of a deal of 100 says.
    #[test]
    fn weights_are_those_of_deals() {
        for (table, party) in of_classes(1..=4).flat_map(|party| [(2, party), (3, party)]) {
            let [class, step, sovereign] = party;
            let terms = [100, class, step, sovereign, 978, 3, 1, 90, 1, 0, 0, table];
            let record = Record::new(Terms::from_numbers(&terms), &[], &[]);
            let report = hadlephoga::report(&record).expect("an accepted deal");
            assert_eq!(weight(table, party), report.weighted_amount, "{party:?}");
        }
    }
}
