//! The tables of 2023 (02: L9). What the request lists is all that changes: the
//! rest is that of 2019, whatever the later chapters say.

use crate::tables::{Band, Tables, NO_END};
use crate::tables_2019;

pub const TABLES: Tables = Tables {
    bank_weights: [150, 20, 30, 50, 100, 100, 150],
    corporate_weights: [100, 20, 50, 75, 100, 150, 150],
    other_debt: &OTHER_DEBT,
    main_index_equity: 200_000,
    other_equity: 300_000,
    gold: 200_000,
    not_eligible_lent: 300_000,
    ..tables_2019::TABLES
};

/// Bands of 1, 3, 5 and 10 years; the other issuers' alone.
const OTHER_DEBT: [Band; 5] = [
    (360, [10_000, 20_000]),
    (1_080, [30_000, 40_000]),
    (1_800, [40_000, 60_000]),
    (3_600, [60_000, 120_000]),
    (NO_END, [120_000, 200_000]),
];

#[cfg(test)]
mod tests {
    use super::*;

    #[test]
    fn risk_weights_are_those_of_the_request() {
        // Columns 1 to 6 and unrated, as document 01 prints them.
        let changed = [
            (1, [0, 20, 50, 100, 100, 150, 100]),
            (2, [20, 30, 50, 100, 100, 150, 150]),
            (3, [20, 50, 75, 100, 150, 150, 100]),
        ];
        for (class, row) in changed {
            for (step, weight) in [1, 2, 3, 4, 5, 6, 0].into_iter().zip(row) {
                assert_eq!(TABLES.risk_weight(class, step), weight, "{class} {step}");
            }
        }
        assert_eq!(TABLES.risk_weight(4, 0), 75);
    }

    /// First and last day of each band with its percentages at step 1 and at
    /// steps 2 and 3.
    const OTHER_ISSUERS: [(u64, u64, u32, u32); 5] = [
        (1, 360, 1, 2),
        (361, 1_080, 3, 4),
        (1_081, 1_800, 4, 6),
        (1_801, 3_600, 6, 12),
        (3_601, 100_000, 12, 20),
    ];

    #[test]
    fn haircuts_of_other_issuers_are_those_of_the_request() {
        for (first, last, at_step_1, at_steps_2_and_3) in OTHER_ISSUERS {
            for (goods, life) in [(3, first), (3, last), (4, first), (4, last)] {
                let haircut = |step| TABLES.collateral_haircut(goods, step, life, true);
                let second = Some(at_steps_2_and_3 * 10_000);
                assert_eq!(haircut(1), Some(at_step_1 * 10_000), "{goods} {life}");
                assert_eq!([haircut(2), haircut(3)], [second; 2], "{goods} {life}");
                let unrated = if goods == 4 { second } else { None };
                assert_eq!(haircut(0), unrated, "{goods} {life}");
            }
        }
    }

    #[test]
    fn haircuts_of_equity_and_gold_are_those_of_the_request() {
        let haircut = |goods| TABLES.collateral_haircut(goods, 0, 0, false);
        assert_eq!(
            [1, 7, 8, 9].map(haircut),
            [0, 200_000, 300_000, 200_000].map(Some)
        );
        let lent = |(goods, step)| TABLES.lent_haircut(goods, step, 100);
        assert_eq!([(2, 5), (4, 0), (6, 1)].map(lent), [300_000; 3]);
    }

    #[test]
    fn what_the_request_does_not_list_is_that_of_2019() {
        for life in (1..4_000).chain([36_000, 100_000]) {
            for (goods, step) in [2, 5]
                .into_iter()
                .flat_map(|g| [1, 2, 3, 4].map(|s| (g, s)))
            {
                let haircut = |tables: &Tables| tables.collateral_haircut(goods, step, life, false);
                let expected = haircut(&tables_2019::TABLES);
                assert_eq!(haircut(&TABLES), expected, "{goods} {step} {life}");
            }
        }
        assert_eq!(TABLES.collateral_haircut(2, 4, 1, false), Some(150_000));
        assert_eq!(TABLES.currency, 80_000);
    }
}
