//! Repairing a book that came by mail (02: L14), sentence by sentence.

mod common;

use common::*;

/// A book, its repair and the numbers of the lines altered.
type Case<'a> = (&'a [u8], &'a [u8], &'a [u64]);

/// Checks the repairs, and that a repair of what they give alters nothing.
fn assert_repairs(cases: &[Case]) {
    for (book, expected, altered) in cases {
        assert_eq!(
            repaired(book),
            (expected.to_vec(), altered.to_vec()),
            "{book:?}"
        );
        assert_unaltered(&[expected]);
    }
}

/// Checks that the repair is a copy and lists no line.
fn assert_unaltered(books: &[&[u8]]) {
    for book in books {
        assert_eq!(repaired(book), (book.to_vec(), Vec::new()), "{book:?}");
    }
}

#[test]
fn each_run_of_spaces_becomes_one_tab() {
    assert_repairs(&[
        (b"A 0\n", b"A\t0\n", &[1]),
        (b"A  0\n", b"A\t0\n", &[1]),
        (b"A   0\n", b"A\t0\n", &[1]),
        (b"A 0 A\n", b"A\t0\tA\n", &[1]),
        (b"A   0  A 0    A\n", b"A\t0\tA\t0\tA\n", &[1]),
    ]);
}

#[test]
fn a_tab_is_no_part_of_a_run_of_spaces() {
    assert_repairs(&[
        (b"A \t0\n", b"A\t\t0\n", &[1]),
        (b"A\t 0\n", b"A\t\t0\n", &[1]),
        (b"A   \t0\n", b"A\t\t0\n", &[1]),
        (b"A\t   0\n", b"A\t\t0\n", &[1]),
        (b"A  \t  0\n", b"A\t\t\t0\n", &[1]),
        (b"A\t  \t0\n", b"A\t\t\t0\n", &[1]),
        (b" \t \t ", b"\t\t\t\t\t", &[1]),
    ]);
    assert_unaltered(&[b"A\t0\n", b"A\t\t0\n", b"\t\t\t", b"\t\n\t"]);
}

#[test]
fn spaces_count_wherever_they_stand_in_a_line() {
    assert_repairs(&[
        (b" A\n", b"\tA\n", &[1]),
        (b"   A\n", b"\tA\n", &[1]),
        (b"A \n", b"A\t\n", &[1]),
        (b"A  \n", b"A\t\n", &[1]),
        (b"A ", b"A\t", &[1]),
        (b"A   ", b"A\t", &[1]),
        (b" ", b"\t", &[1]),
        (b"   \n", b"\t\n", &[1]),
    ]);
}

#[test]
fn a_line_feed_ends_a_run_of_spaces() {
    assert_repairs(&[
        (b"A \n 0", b"A\t\n\t0", &[1, 2]),
        (b"  \n  \n  ", b"\t\n\t\n\t", &[1, 2, 3]),
        (b"A  \n\n  0", b"A\t\n\n\t0", &[1, 3]),
    ]);
}

#[test]
fn every_return_of_a_run_that_ends_at_a_line_feed_is_dropped() {
    assert_repairs(&[
        (b"A\r\n", b"A\n", &[1]),
        (b"A\r\r\n", b"A\n", &[1]),
        (b"A\r\r\r\n", b"A\n", &[1]),
        (b"\r\n", b"\n", &[1]),
        (b"\r\r\n", b"\n", &[1]),
        (b"A\t\r\n", b"A\t\n", &[1]),
        (b"A\r\n\r\r\n0\r\n", b"A\n\n0\n", &[1, 2, 3]),
    ]);
}

#[test]
fn returns_that_do_not_reach_a_line_feed_stay() {
    assert_unaltered(&[
        b"A\r0\n",
        b"\rA\n",
        b"A\r\r\r0\n",
        b"A\r\t\n",
        b"\r\t0\n",
        b"\r\0\n",
        b"\n\r0\n",
    ]);
    assert_repairs(&[
        (b"A\r \n", b"A\r\t\n", &[1]),
        (b"A\r\r  0\n", b"A\r\r\t0\n", &[1]),
        (b"A \r0\n", b"A\t\r0\n", &[1]),
    ]);
}

#[test]
fn returns_at_the_end_of_the_text_stay() {
    assert_unaltered(&[b"\r", b"\r\r\r", b"A\r", b"A\r\r", b"A\n\r", b"\n\n\r\r"]);
    assert_repairs(&[
        (b"A\r\n\r", b"A\n\r", &[1]),
        (b"A \r", b"A\t\r", &[1]),
        (b"A\r ", b"A\r\t", &[1]),
    ]);
}

#[test]
fn a_run_of_returns_is_parted_by_any_other_byte() {
    assert_repairs(&[
        (b"\r \r\n", b"\r\t\n", &[1]),
        (b"\r\r  \r\r\n", b"\r\r\t\n", &[1]),
        (b"\r\t\r\n", b"\r\t\n", &[1]),
        (b"\rA\r\r\n", b"\rA\n", &[1]),
        (b"\r\0\r\n", b"\r\0\n", &[1]),
        (b"\r \r", b"\r\t\r", &[1]),
    ]);
}

#[test]
fn spaces_before_dropped_returns_are_still_a_run() {
    assert_repairs(&[
        (b"A \r\n", b"A\t\n", &[1]),
        (b"A  \r\r\n", b"A\t\n", &[1]),
        (b" \r\n \r\n", b"\t\n\t\n", &[1, 2]),
        (b"A\r\n 0", b"A\n\t0", &[1, 2]),
    ]);
}

#[test]
fn an_empty_book_and_line_feeds_alone_are_copied() {
    assert_unaltered(&[b"", b"\n", b"\n\n", b"\n\n\n\n\n"]);
}

#[test]
fn the_last_line_needs_no_line_feed() {
    assert_repairs(&[
        (b"A\n0 A", b"A\n0\tA", &[2]),
        (b"A 0\nA", b"A\t0\nA", &[1]),
        (b"A\r\n0 ", b"A\n0\t", &[1, 2]),
        (b"\n\n ", b"\n\n\t", &[3]),
        (b" \n", b"\t\n", &[1]),
    ]);
    assert_unaltered(&[b"A", b"A\n0", b"A\n\t", b"A\n0\r"]);
}

#[test]
fn altered_lines_are_listed_once_and_rising() {
    let book = b"A 0 A \r\nA\n  \t \r\r\n\nA\r0\n\r\n A\n0\r";
    let text = b"A\t0\tA\t\nA\n\t\t\t\n\nA\r0\n\n\tA\n0\r";
    assert_repairs(&[(book, text, &[1, 3, 6, 7])]);
}

#[test]
fn line_numbers_go_beyond_one_byte() {
    let book = [b"\n".repeat(299), b" \n".to_vec(), b"\n".repeat(69_000)];
    let book = &book.concat()[..65_536];
    assert_eq!(repaired(book).1, [300]);
    let last = [b"\n".repeat(65_535), b" ".to_vec()].concat();
    assert_eq!(repaired(&last).1, [65_536]);
}

#[test]
fn a_book_with_neither_is_copied() {
    let example = tabbed(EXAMPLE);
    assert_unaltered(&[&example, &example[..example.len() - 1], b"A\r\t0\n"]);
}

#[test]
fn other_bytes_stay() {
    for byte in (0..=u8::MAX).filter(|&byte| byte != b' ') {
        assert_unaltered(&[&[byte], &[b'A', byte, b'0'], &[byte, b'A', b'\n']]);
        if byte != b'\r' {
            assert_unaltered(&[&[b'A', byte, b'\n']]);
        }
    }
    // Other signs of blank space, in one byte or more.
    assert_unaltered(&[b"\x0b\x0c\x85\xa0\n", "\u{a0}\u{2003}\u{2028}\n".as_bytes()]);
}

#[test]
fn a_book_need_not_be_one_that_is_answered() {
    assert_repairs(&[
        (b"CRM 9\r\n", b"CRM\t9\n", &[1]),
        (b"Dear all,\r\n\r\n", b"Dear\tall,\n\n", &[1, 2]),
    ]);
}
