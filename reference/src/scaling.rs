//! Scaling a haircut from ten business days to the holding period of the deal or
//! netting set (01: Haircuts; 02: L6; CRE22.61 to CRE22.64).

/// Holding period in business days of the haircuts of a deal.
pub fn deal_days(kind: u64, interval: u64) -> u64 {
    let minimum = match kind {
        1 => 5,
        2 => 10,
        _ => 20,
    };
    interval + (minimum - 1)
}

/// Holding period in business days of the currency haircut of a guarantee or
/// swap, whatever the kind of the deal.
pub fn guarantee_days(interval: u64) -> u64 {
    interval + 9
}

/// Holding period in business days of the haircuts of a netting set: its
/// transactions are repo-style.
pub fn netting_days(interval: u64) -> u64 {
    interval + 4
}

/// The least h with 10 × h × h at or above `haircut` × `haircut` × `days`.
///
/// As h × h is whole, that is the square root, rounded up, of a tenth rounded
/// up. No product can leave `u128`, and the root stays below 2^63.
pub fn scaled(haircut: u32, days: u64) -> u64 {
    let square = u128::from(haircut) * u128::from(haircut) * u128::from(days);
    root_rounded_up(square.div_ceil(10)) as u64
}

fn root_rounded_up(square: u128) -> u128 {
    let root = square.isqrt();
    if root * root < square {
        root + 1
    } else {
        root
    }
}

#[cfg(test)]
mod tests {
    use super::*;
    use crate::tables::Tables;
    use crate::{tables_2019, tables_2023};
    use std::collections::BTreeSet;

    /// The definition, word for word, for haircuts that a search can reach.
    fn least_by_search(haircut: u64, days: u64) -> u64 {
        let wanted = haircut * haircut * days;
        (0..).find(|h| 10 * h * h >= wanted).unwrap_or(u64::MAX)
    }

    /// Whether `h` is the least number with 10 × h × h at or above `wanted`.
    fn is_least(h: u64, wanted: u128) -> bool {
        let reaches = |h: u64| 10 * u128::from(h) * u128::from(h) >= wanted;
        reaches(h) && (h == 0 || !reaches(h - 1))
    }

    fn wanted(haircut: u32, days: u64) -> u128 {
        u128::from(haircut).pow(2) * u128::from(days)
    }

    const TABLE: [u32; 17] = [
        0, 5_000, 10_000, 20_000, 30_000, 40_000, 60_000, 80_000, 120_000, 150_000, 160_000,
        200_000, 240_000, 250_000, 300_000, 1, 999_999,
    ];

    #[test]
    fn figures_of_the_paper() {
        assert_eq!(scaled(80_000, 5), 56_569);
        assert_eq!(scaled(80_000, 10), 80_000);
        assert_eq!(scaled(80_000, 20), 113_138);
        assert_eq!(scaled(10_000, 40), 20_000);
        assert!(scaled(250_000, deal_days(3, 250)) > 1_000_000);
    }

    #[test]
    fn holding_periods_of_the_kinds() {
        assert_eq!([1, 2, 3].map(|kind| deal_days(kind, 1)), [5, 10, 20]);
        assert_eq!([1, 2, 3].map(|kind| deal_days(kind, 250)), [254, 259, 269]);
        assert_eq!(guarantee_days(1), 10);
        assert!((1..=60).all(|interval| netting_days(interval) == deal_days(1, interval)));
    }

    #[test]
    fn is_the_least_number_by_search() {
        for haircut in 0..=150 {
            for days in 1..=269 {
                let found = least_by_search(u64::from(haircut), days);
                assert_eq!(scaled(haircut, days), found, "{haircut} {days}");
            }
        }
        for haircut in TABLE {
            for days in [5, 10, 269] {
                let found = least_by_search(u64::from(haircut), days);
                assert_eq!(scaled(haircut, days), found, "{haircut} {days}");
            }
        }
    }

    #[test]
    fn is_the_least_number_for_every_table_haircut_and_holding_period() {
        for haircut in TABLE {
            for days in 0..=300 {
                let h = scaled(haircut, days);
                assert!(is_least(h, wanted(haircut, days)), "{haircut} {days}");
            }
        }
    }

    /// Every haircut of the tables, those of goods lent and of the currency too.
    fn haircuts_of(tables: &Tables) -> BTreeSet<u32> {
        let mut haircuts = BTreeSet::from([tables.currency]);
        for (goods, step) in (1..=9).flat_map(|goods| (0..=6).map(move |step| (goods, step))) {
            for life in (0..=4_000).chain([36_000, 100_000]) {
                haircuts.insert(tables.lent_haircut(goods, step, life));
                haircuts.extend(tables.collateral_haircut(goods, step, life, false));
                haircuts.extend(tables.collateral_haircut(goods, step, life, true));
            }
        }
        haircuts
    }

    #[test]
    fn is_the_least_number_for_the_tables_themselves_revalued_daily() {
        for (tables, count) in [(tables_2019::TABLES, 13), (tables_2023::TABLES, 14)] {
            let haircuts = haircuts_of(&tables);
            assert_eq!(haircuts.len(), count);
            for haircut in haircuts {
                assert!(TABLE.contains(&haircut), "{haircut}");
                // Daily by kind, then the periods next to those.
                for days in [5, 10, 20, 6, 9, 11, 19, 21] {
                    let h = scaled(haircut, days);
                    assert!(is_least(h, wanted(haircut, days)), "{haircut} {days}");
                }
            }
        }
    }

    #[test]
    fn is_the_least_number_far_beyond_the_tables() {
        let mut seed: u64 = 0x9E37_79B9_7F4A_7C15;
        for _ in 0..200_000 {
            seed ^= seed << 13;
            seed ^= seed >> 7;
            seed ^= seed << 17;
            let haircut = (seed >> 32) as u32;
            // Below 2^62 the test's own product 10 × h × h stays inside u128.
            let days = (seed.rotate_left(21) >> 2) >> (seed % 62);
            let h = scaled(haircut, days);
            assert!(is_least(h, wanted(haircut, days)), "{haircut} {days}");
        }
    }

    #[test]
    fn perfect_squares_are_exact() {
        for root in [0, 1, 2, 3, 1 << 31, (1 << 62) - 1] {
            assert_eq!(root_rounded_up(root * root), root);
            assert_eq!(root_rounded_up(root * root + 1), root + 1);
        }
    }

    #[test]
    fn never_overflows() {
        assert!(scaled(u32::MAX, u64::MAX) < 1 << 63);
        assert_eq!(scaled(u32::MAX, 0), 0);
        assert_eq!(scaled(0, u64::MAX), 0);
    }
}
