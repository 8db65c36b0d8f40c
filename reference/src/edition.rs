//! Editions of the rules and of the lines, by the number in the second field of
//! a book's header (02: L5, L9). A deal holds the number of its edition, a netting
//! set the number of the one whose tables it names. All that goes by edition is
//! said here.

use crate::tables::Tables;
use crate::{tables_2019, tables_2023};

struct Edition {
    number: u64,
    /// The first line of its books.
    header: &'static [u8],
    /// Whether D, G and S lines send the sovereign's step.
    sends_sovereign: bool,
    /// Whether no unrated bank or corporate weighs less than its sovereign.
    has_floor: bool,
    /// Whether netting sets name its tables.
    has_netting: bool,
    tables: &'static Tables,
}

static EDITIONS: [Edition; 3] = [
    Edition {
        number: 1,
        header: b"CRM\t1\n",
        sends_sovereign: false,
        has_floor: false,
        has_netting: false,
        tables: &tables_2019::TABLES,
    },
    Edition {
        number: 2,
        header: b"CRM\t2\n",
        sends_sovereign: true,
        has_floor: true,
        has_netting: true,
        tables: &tables_2019::TABLES,
    },
    Edition {
        number: 3,
        header: b"CRM\t3\n",
        sends_sovereign: true,
        has_floor: true,
        has_netting: true,
        tables: &tables_2023::TABLES,
    },
];

fn find(number: u64) -> Option<&'static Edition> {
    EDITIONS.iter().find(|edition| edition.number == number)
}

pub fn is_known(edition: u64) -> bool {
    find(edition).is_some()
}

/// The edition that the header names and what stands behind the header; none
/// where the first line of the book is wrong.
pub fn headed(book: &[u8]) -> Option<(u64, &[u8])> {
    EDITIONS
        .iter()
        .find_map(|edition| Some((edition.number, book.strip_prefix(edition.header)?)))
}

/// Whether D, G and S lines of a known edition send the sovereign's step.
pub fn sends_sovereign(edition: u64) -> bool {
    find(edition).is_some_and(|edition| edition.sends_sovereign)
}

/// Whether a known edition lets no unrated bank or corporate weigh less than
/// its sovereign of incorporation (CRE20.11, CRE20.17).
pub fn has_floor(edition: u64) -> bool {
    find(edition).is_some_and(|edition| edition.has_floor)
}

/// Whether a netting set may name its table by the number (02: L9).
pub fn is_netting_table(number: u64) -> bool {
    find(number).is_some_and(|edition| edition.has_netting)
}

/// Risk weights and haircuts of a known edition; no accepted deal or netting set
/// holds another.
pub fn tables(edition: u64) -> &'static Tables {
    find(edition).map_or(&tables_2019::TABLES, |edition| edition.tables)
}

#[cfg(test)]
mod tests {
    use super::*;

    #[test]
    fn editions_1_to_3_are_known() {
        for edition in (0..=300).chain([1 << 32, (1 << 32) + 1, u64::MAX]) {
            assert_eq!(is_known(edition), [1, 2, 3].contains(&edition), "{edition}");
        }
    }

    #[test]
    fn the_header_names_the_edition() {
        assert_eq!(headed(b"CRM\t1\n"), Some((1, &b""[..])));
        assert_eq!(headed(b"CRM\t2\nD\t"), Some((2, &b"D\t"[..])));
        assert_eq!(headed(b"CRM\t3\nD\t"), Some((3, &b"D\t"[..])));
        for wrong in [
            &b""[..],
            b"CRM\t3",
            b"CRM\t0\n",
            b"CRM\t4\n",
            b"CRM\t03\n",
            b"CRM\t\n",
        ] {
            assert_eq!(headed(wrong), None, "{wrong:?}");
        }
    }

    #[test]
    fn the_first_edition_has_neither_the_field_nor_the_floor() {
        assert_eq!([1, 2, 3].map(sends_sovereign), [false, true, true]);
        assert_eq!([1, 2, 3].map(has_floor), [false, true, true]);
    }

    #[test]
    fn netting_sets_name_tables_2_and_3() {
        for number in (0..=300).chain([1 << 32, (1 << 32) + 2, u64::MAX]) {
            assert_eq!(is_netting_table(number), [2, 3].contains(&number));
        }
    }

    #[test]
    fn the_third_edition_has_the_tables_of_2023() {
        let unrated_bank = |edition| tables(edition).risk_weight(2, 0);
        assert_eq!([1, 2, 3].map(unrated_bank), [50, 50, 150]);
        let gold = |edition| tables(edition).gold;
        assert_eq!([1, 2, 3].map(gold), [150_000, 150_000, 200_000]);
    }
}
