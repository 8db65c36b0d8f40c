//! The tables of 2019 (01: Risk weights in percent, Haircuts in millionths).

use crate::tables::{Band, Tables, NO_END};

/// CRE20.4, CRE20.14 option 2, CRE20.17 and CRE22.44 to CRE22.47.
pub const TABLES: Tables = Tables {
    sovereign_weights: [100, 0, 20, 50, 100, 100, 150],
    bank_weights: [50, 20, 50, 50, 100, 100, 150],
    corporate_weights: [100, 20, 50, 100, 100, 150, 150],
    retail_weight: 75,
    sovereign_debt: &SOVEREIGN_DEBT,
    other_debt: &OTHER_DEBT,
    securitisation: &SECURITISATION,
    sovereign_debt_at_step_4: 150_000,
    main_index_equity: 150_000,
    other_equity: 250_000,
    gold: 150_000,
    not_eligible_lent: 250_000,
    currency: 80_000,
};

const SOVEREIGN_DEBT: [Band; 3] = [
    (360, [5_000, 10_000]),
    (1_800, [20_000, 30_000]),
    (NO_END, [40_000, 60_000]),
];

const OTHER_DEBT: [Band; 3] = [
    (360, [10_000, 20_000]),
    (1_800, [40_000, 60_000]),
    (NO_END, [80_000, 120_000]),
];

const SECURITISATION: [Band; 3] = [
    (360, [20_000, 40_000]),
    (1_800, [80_000, 120_000]),
    (NO_END, [160_000, 240_000]),
];

#[cfg(test)]
mod tests {
    use super::*;

    #[test]
    fn risk_weights_are_those_of_the_paper() {
        // Columns 1 to 6 and unrated, as the paper prints them.
        let printed = [
            (1, [0, 20, 50, 100, 100, 150, 100]),
            (2, [20, 50, 50, 100, 100, 150, 50]),
            (3, [20, 50, 100, 100, 150, 150, 100]),
        ];
        for (class, row) in printed {
            for (step, weight) in [1, 2, 3, 4, 5, 6, 0].into_iter().zip(row) {
                assert_eq!(TABLES.risk_weight(class, step), weight, "{class} {step}");
            }
        }
        assert_eq!(TABLES.risk_weight(4, 0), 75);
    }

    #[test]
    fn haircuts_of_debt_are_those_of_the_paper() {
        let printed = [
            (1, 1, [5_000, 10_000, 20_000]),
            (1, 360, [5_000, 10_000, 20_000]),
            (1, 361, [20_000, 40_000, 80_000]),
            (1, 1_800, [20_000, 40_000, 80_000]),
            (1, 1_801, [40_000, 80_000, 160_000]),
            (1, 36_000, [40_000, 80_000, 160_000]),
            (1, 100_000, [40_000, 80_000, 160_000]),
            (2, 1, [10_000, 20_000, 40_000]),
            (3, 360, [10_000, 20_000, 40_000]),
            (2, 361, [30_000, 60_000, 120_000]),
            (3, 1_800, [30_000, 60_000, 120_000]),
            (2, 1_801, [60_000, 120_000, 240_000]),
            (3, 36_000, [60_000, 120_000, 240_000]),
            (3, 100_000, [60_000, 120_000, 240_000]),
        ];
        for (step, life, [sovereign, other, securitisation]) in printed {
            let haircut = |goods| TABLES.collateral_haircut(goods, step, life, false);
            assert_eq!(haircut(2), Some(sovereign));
            assert_eq!(haircut(3), Some(other));
            assert_eq!(haircut(4), Some(other));
            assert_eq!(haircut(5), Some(securitisation));
        }
    }

    #[test]
    fn other_haircuts_are_those_of_the_paper() {
        let haircut = |goods| TABLES.collateral_haircut(goods, 0, 0, false);
        assert_eq!(
            [1, 7, 8, 9].map(haircut),
            [0, 150_000, 250_000, 150_000].map(Some)
        );
        for life in [1, 100_000] {
            let at_step_4 = TABLES.collateral_haircut(2, 4, life, false);
            assert_eq!(at_step_4, Some(150_000), "{life}");
        }
        let listed = |life| TABLES.collateral_haircut(4, 0, life, true);
        let expected = [20_000, 60_000, 120_000, 120_000].map(Some);
        assert_eq!([360, 361, 1_801, 100_000].map(listed), expected);
        assert_eq!(TABLES.currency, 80_000);
    }

    #[test]
    fn haircuts_of_lent_goods_are_those_of_the_paper() {
        let lent = |(goods, step)| TABLES.lent_haircut(goods, step, 100);
        assert_eq!(TABLES.lent_haircut(1, 0, 0), 0);
        assert_eq!([(2, 4), (4, 3)].map(lent), [150_000, 20_000]);
        assert_eq!([(2, 5), (4, 0), (6, 1)].map(lent), [250_000; 3]);
    }
}
