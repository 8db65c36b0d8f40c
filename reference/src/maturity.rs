//! Maturity mismatch (01: From items to the weighted amount, 2; Grounds 25 and
//! 26; CRE22.97 to CRE22.100).

use crate::ground;
use crate::share::Share;

/// Three months: the cover's last stretch, which counts for nothing.
const THREE_MONTHS: u64 = 90;
const ONE_YEAR: u64 = 360;
const FIVE_YEARS: u64 = 1_800;

/// The share of a value that survives the difference between the cover's term
/// and the deal's, or the ground for leaving the cover out.
pub fn maturity_share(residual: u64, original: u64, deal_term: u64) -> Result<Share, u8> {
    if residual >= deal_term {
        return Ok(Share::ALL);
    }
    if original < ONE_YEAR {
        return Err(ground::SHORT_ORIGINAL);
    }
    if residual <= THREE_MONTHS {
        return Err(ground::SHORT_RESIDUAL);
    }
    // Both terms are above three months here: the deal's is above the cover's.
    let deal_term = deal_term.min(FIVE_YEARS);
    let cover_term = residual.min(deal_term);
    Ok(Share::new(
        cover_term - THREE_MONTHS,
        deal_term - THREE_MONTHS,
    ))
}

#[cfg(test)]
mod tests {
    use super::*;

    fn left(residual: u64, original: u64, deal_term: u64) -> Result<u64, u8> {
        maturity_share(residual, original, deal_term).map(|share| share.split(1_000_000).left)
    }

    #[test]
    fn figures_of_the_paper() {
        assert_eq!(left(900, 1_080, 1_800), Ok(473_684));
        assert_eq!(left(91, 1_080, 1_800), Ok(584));
        assert_eq!(left(90, 1_080, 1_800), Err(26));
        assert_eq!(left(300, 359, 1_800), Err(25));
        assert!(left(300, 360, 1_800).is_ok());
    }

    #[test]
    fn grounds_fall_under_a_mismatch_only() {
        assert_eq!(left(30, 30, 30), Ok(1_000_000));
        assert_eq!(left(31, 31, 30), Ok(1_000_000));
        assert_eq!(left(29, 29, 30), Err(25));
        assert_eq!(left(29, 360, 30), Err(26));
    }

    #[test]
    fn terms_beyond_five_years_count_as_five_years() {
        for longest in [36_000, 36_001, 100_000] {
            assert_eq!(left(1_800, 1_800, longest), Ok(1_000_000));
            assert_eq!(left(longest - 1, longest, longest), Ok(1_000_000));
            assert_eq!(left(1_799, 1_800, longest), Ok(999_415));
            assert_eq!(left(91, longest, longest), Ok(584));
            assert_eq!(left(90, longest, longest), Err(26));
            assert_eq!(left(90, 359, longest), Err(25));
        }
        assert_eq!(left(91, 360, 92), Ok(500_000));
    }

    #[test]
    fn never_overflows() {
        assert_eq!(left(91, u64::MAX, u64::MAX), Ok(584));
        assert_eq!(left(u64::MAX - 1, u64::MAX, u64::MAX), Ok(1_000_000));
        assert_eq!(left(0, u64::MAX, u64::MAX), Err(26));
        assert_eq!(left(0, 0, 0), Ok(1_000_000));
        assert_eq!(left(0, 0, 1), Err(25));
    }
}
