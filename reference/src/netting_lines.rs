//! Netting sets as lines of numbers, a form of this crate's own: the six numbers
//! of a set, then seven for each position, parted by one tab each.

use crate::netting::{net_set, NettingReply, NettingSet, Position};
use crate::refusal;

/// The reply to the set of a line, or 11 where the line cannot be read. The line
/// feed may be missing.
pub fn line_reply(line: &[u8]) -> NettingReply {
    match read_set(line.strip_suffix(b"\n").unwrap_or(line)) {
        Some(set) => net_set(&set),
        None => NettingReply {
            refusal: refusal::LINE,
            ..NettingReply::default()
        },
    }
}

/// The set of a line without its line feed.
fn read_set(line: &[u8]) -> Option<NettingSet> {
    let pieces = line.split(|&byte| byte == b'\t');
    let numbers: Vec<u64> = pieces.map(number).collect::<Option<_>>()?;
    let (fields, positions) = numbers.split_first_chunk()?;
    let positions = positions.chunks(7).map(position).collect::<Option<_>>()?;
    Some(NettingSet::new(*fields, positions))
}

/// A position, unless numbers are missing.
fn position(numbers: &[u64]) -> Option<Position> {
    let fields: [u64; 7] = numbers.try_into().ok()?;
    Some(fields.into())
}

/// A number of 64 bits from decimal digits alone.
fn number(digits: &[u8]) -> Option<u64> {
    if digits.iter().all(u8::is_ascii_digit) {
        std::str::from_utf8(digits).ok()?.parse().ok()
    } else {
        None
    }
}

#[cfg(test)]
mod tests {
    use super::*;

    #[test]
    fn numbers_are_decimal_digits_within_64_bits() {
        for (digits, expected) in [
            (&b"0"[..], 0),
            (b"7", 7),
            (b"0012", 12),
            (b"18446744073709551615", u64::MAX),
            (b"0000000000000000000000001", 1),
        ] {
            assert_eq!(number(digits), Some(expected), "{digits:?}");
        }
        for bad in [
            &b""[..],
            b"18446744073709551616",
            b"100000000000000000000",
            b"+1",
            b"-1",
            b" 1",
            b"1 ",
            b"1\r",
            b"1.0",
            b"1_0",
            b"a",
            b"\xff",
            b"1/",
            b"1:",
            "\u{661}".as_bytes(),
        ] {
            assert_eq!(number(bad), None, "{bad:?}");
        }
    }

    #[test]
    fn a_line_holds_a_set_and_whole_positions() {
        for count in 0..=30 {
            let line = vec!["1"; count].join("\t");
            let set = read_set(line.as_bytes());
            let whole = count >= 6 && (count - 6) % 7 == 0;
            let expected = whole.then_some((count.max(6) - 6) / 7);
            assert_eq!(set.map(|set| set.positions.len()), expected, "{count}");
        }
    }

    #[test]
    fn numbers_stand_in_the_order_of_the_types() {
        let line = b"2\t3\t4\t5\t6\t7\t11\t12\t13\t14\t15\t16\t17\t21\t22\t23\t24\t25\t26\t27";
        let first = Position {
            side: 11,
            amount: 12,
            security: 13,
            goods: 14,
            step: 15,
            life: 16,
            currency: 17,
        };
        let second = Position::from([21, 22, 23, 24, 25, 26, 27]);
        let expected = NettingSet {
            table: 2,
            class: 3,
            step: 4,
            sovereign_step: 5,
            settlement: 6,
            interval: 7,
            positions: vec![first, second],
        };
        assert_eq!(read_set(line), Some(expected));
    }
}
