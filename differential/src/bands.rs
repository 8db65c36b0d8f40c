//! Bands of issue life: which one a life is in, by edition and type of goods, and
//! the days at their edges.

const OTHER_ISSUERS: u64 = 3;
const BANKS: u64 = 4;

/// Last days of the bands but the last, which has no end.
const BANDS: &[u64] = &[360, 1800];
const BANDS_2023: &[u64] = &[360, 1080, 1800, 3600];

/// Both sides of every edge that some debt of some edition has.
pub const EDGES: [u64; 8] = [360, 361, 1080, 1081, 1800, 1801, 3600, 3601];

fn of(edition: u64, goods: u64) -> &'static [u64] {
    match (edition, goods) {
        (3, OTHER_ISSUERS | BANKS) => BANDS_2023,
        _ => BANDS,
    }
}

/// How many bands there are.
pub fn count(edition: u64, goods: u64) -> u64 {
    of(edition, goods).len() as u64 + 1
}

/// The band of a life, from 1; 0 where there is no life.
pub fn band(edition: u64, goods: u64, life: u64) -> u64 {
    match life {
        0 => 0,
        _ => {
            1 + of(edition, goods)
                .iter()
                .filter(|last| life > **last)
                .count() as u64
        }
    }
}

#[cfg(test)]
mod tests {
    use super::*;

    #[test]
    fn bands_of_edges() {
        let of = |edition, goods| EDGES.map(|life| band(edition, goods, life));
        assert_eq!(of(3, OTHER_ISSUERS), [1, 2, 2, 3, 3, 4, 4, 5]);
        assert_eq!(of(3, BANKS), of(3, OTHER_ISSUERS));
        for (edition, goods) in [(1, OTHER_ISSUERS), (2, BANKS), (3, 2), (3, 5)] {
            assert_eq!(of(edition, goods), [1, 2, 2, 2, 2, 3, 3, 3]);
        }
        assert_eq!([1, 2, 3].map(|edition| count(edition, BANKS)), [3, 3, 5]);
        assert_eq!([2, 3, 5, 6].map(|goods| count(3, goods)), [3, 5, 3, 3]);
        assert_eq!(band(3, 7, 0), 0);
    }
}
