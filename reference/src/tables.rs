//! Risk weights and standard supervisory haircuts: what the tables of an edition
//! hold and how they are looked up (01: Risk weights in percent, Haircuts in
//! millionths). The figures stand in a file for each version of the framework.

/// Classes of counterparties and guarantors; class 3 is a corporate among the
/// former, an other entity among the latter.
pub const SOVEREIGN: u64 = 1;
pub const BANK: u64 = 2;
pub const CORPORATE: u64 = 3;
pub const OTHER_ENTITY: u64 = CORPORATE;
pub const RETAIL: u64 = 4;

/// Goods types; 6, re-securitisation, has no haircut and so no name.
pub const CASH: u64 = 1;
const SOVEREIGN_DEBT: u64 = 2;
const OTHER_DEBT: u64 = 3;
pub const BANK_DEBT: u64 = 4;
const SECURITISATION: u64 = 5;
const MAIN_INDEX_EQUITY: u64 = 7;
const OTHER_EQUITY: u64 = 8;
const GOLD: u64 = 9;

/// Rating steps run from 0, unrated, to this one.
const WORST_STEP: usize = 6;

/// Risk weights in percent by step, the unrated party's first.
pub type WeightsByStep = [u64; WORST_STEP + 1];

/// A band of issue life: its last day, and the haircuts at step 1 and at steps 2
/// and 3.
pub type Band = (u64, [u32; 2]);

/// Last day of the band without an end.
pub const NO_END: u64 = u64::MAX;

/// The tables of a version of the framework: weights in percent, haircuts in
/// millionths at a holding period of ten business days.
pub struct Tables {
    pub sovereign_weights: WeightsByStep,
    pub bank_weights: WeightsByStep,
    /// Of corporates and of other entities.
    pub corporate_weights: WeightsByStep,
    pub retail_weight: u64,
    /// Bands rise and the last one has no end, here and in the next two.
    pub sovereign_debt: &'static [Band],
    /// Debt of other issuers, banks among them.
    pub other_debt: &'static [Band],
    pub securitisation: &'static [Band],
    /// Sovereign debt at step 4, of any life.
    pub sovereign_debt_at_step_4: u32,
    pub main_index_equity: u32,
    pub other_equity: u32,
    pub gold: u32,
    /// Lent goods that are not eligible as collateral (CRE22.47).
    pub not_eligible_lent: u32,
    /// Exposure and cover in different currencies (CRE22.46).
    pub currency: u32,
}

/// Whether goods of the type have a rating step and an issue life.
pub fn is_debt(goods: u64) -> bool {
    !matches!(goods, CASH | MAIN_INDEX_EQUITY | OTHER_EQUITY | GOLD)
}

/// Whether a party of the class sends the step of its sovereign of incorporation
/// (02: L5).
pub fn has_sovereign(class: u64) -> bool {
    !matches!(class, SOVEREIGN | RETAIL)
}

impl Tables {
    /// Risk weight in percent of an accepted class and step by themselves, where
    /// step 0 is unrated.
    pub fn risk_weight(&self, class: u64, step: u64) -> u64 {
        let by_step = match class {
            SOVEREIGN => &self.sovereign_weights,
            BANK => &self.bank_weights,
            RETAIL => return self.retail_weight,
            _ => &self.corporate_weights,
        };
        by_step[step.min(WORST_STEP as u64) as usize]
    }

    /// Haircut of collateral; none where it is not eligible by type and step.
    /// Listed senior bank paper without a rating uses the row of steps 2 and 3
    /// (CRE22.37(4), CRE22.44).
    pub fn collateral_haircut(
        &self,
        goods: u64,
        step: u64,
        life: u64,
        listed: bool,
    ) -> Option<u32> {
        let row = match (goods, step) {
            (BANK_DEBT, 0) if listed => 2,
            _ => step,
        };
        self.rated_haircut(goods, row, life)
    }

    /// Haircut of the goods lent, which have no entry for listed senior paper.
    pub fn lent_haircut(&self, goods: u64, step: u64, life: u64) -> u32 {
        self.rated_haircut(goods, step, life)
            .unwrap_or(self.not_eligible_lent)
    }

    fn rated_haircut(&self, goods: u64, step: u64, life: u64) -> Option<u32> {
        match goods {
            CASH => Some(0),
            SOVEREIGN_DEBT if step == 4 => Some(self.sovereign_debt_at_step_4),
            SOVEREIGN_DEBT => debt_haircut(self.sovereign_debt, step, life),
            OTHER_DEBT | BANK_DEBT => debt_haircut(self.other_debt, step, life),
            SECURITISATION => debt_haircut(self.securitisation, step, life),
            MAIN_INDEX_EQUITY => Some(self.main_index_equity),
            OTHER_EQUITY => Some(self.other_equity),
            GOLD => Some(self.gold),
            _ => None,
        }
    }
}

/// Haircut of the first band that the life does not outlast; none at steps
/// without a row.
fn debt_haircut(bands: &[Band], step: u64, life: u64) -> Option<u32> {
    let row = match step {
        1 => 0,
        2 | 3 => 1,
        _ => return None,
    };
    let within = bands.iter().find(|(last, _)| life <= *last);
    within.map(|(_, haircuts)| haircuts[row])
}

#[cfg(test)]
mod tests {
    use super::*;
    use crate::{tables_2019, tables_2023};

    const VERSIONS: [Tables; 2] = [tables_2019::TABLES, tables_2023::TABLES];

    #[test]
    fn banks_and_class_3_have_a_sovereign() {
        assert_eq!([1, 2, 3, 4].map(has_sovereign), [false, true, true, false]);
    }

    #[test]
    fn bands_rise_and_the_last_has_no_end() {
        for tables in VERSIONS {
            for bands in [
                tables.sovereign_debt,
                tables.other_debt,
                tables.securitisation,
            ] {
                assert!(bands.windows(2).all(|pair| pair[0].0 < pair[1].0));
                assert_eq!(bands.last().map(|(last, _)| *last), Some(NO_END));
            }
        }
    }

    #[test]
    fn neither_a_longer_life_nor_a_worse_step_lowers_a_haircut() {
        for tables in VERSIONS {
            for bands in [
                tables.sovereign_debt,
                tables.other_debt,
                tables.securitisation,
            ] {
                assert!(bands.iter().all(|(_, [first, second])| first <= second));
                for pair in bands.windows(2) {
                    assert!((0..2).all(|row| pair[0].1[row] <= pair[1].1[row]));
                }
            }
        }
    }

    #[test]
    fn a_worse_step_of_a_rated_party_never_weighs_less() {
        for tables in VERSIONS {
            for class in [SOVEREIGN, BANK, CORPORATE] {
                let weights = [1, 2, 3, 4, 5, 6].map(|step| tables.risk_weight(class, step));
                assert!(weights.is_sorted(), "{class} {weights:?}");
            }
        }
    }

    #[test]
    fn eligibility_is_that_of_ground_24_in_every_version() {
        for tables in VERSIONS {
            for (step, listed) in (0..=6).flat_map(|step| [(step, false), (step, true)]) {
                let haircut = |goods| tables.collateral_haircut(goods, step, 500, listed);
                let eligible = |goods| haircut(goods).is_some();
                assert_eq!(eligible(SOVEREIGN_DEBT), !matches!(step, 0 | 5 | 6));
                assert_eq!(eligible(OTHER_DEBT), !(step == 0 || step > 3));
                assert_eq!(eligible(SECURITISATION), !(step == 0 || step > 3));
                assert_eq!(eligible(BANK_DEBT), !(step > 3 || step == 0 && !listed));
                assert!(!eligible(6));
            }
            for goods in [CASH, MAIN_INDEX_EQUITY, OTHER_EQUITY, GOLD] {
                assert!(tables.collateral_haircut(goods, 0, 0, false).is_some());
            }
        }
    }

    #[test]
    fn the_haircut_of_goods_not_eligible_is_for_lent_ones_alone() {
        for tables in VERSIONS {
            for (goods, step) in [
                (SOVEREIGN_DEBT, 0),
                (SOVEREIGN_DEBT, 5),
                (OTHER_DEBT, 4),
                (BANK_DEBT, 0),
                (BANK_DEBT, 6),
                (SECURITISATION, 0),
                (6, 1),
            ] {
                let lent = tables.lent_haircut(goods, step, 100);
                assert_eq!(lent, tables.not_eligible_lent);
                assert_eq!(tables.collateral_haircut(goods, step, 100, false), None);
            }
        }
    }
}
