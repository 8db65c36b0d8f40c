//! Books, their refusals, and lists of every length.

use crate::sample::{SAMPLE, SAMPLE_RESULTS};
use hadlephoga::{answer_book, answer_book_numbers, BookReply, Refusal, ANSWER_LENGTH, BOOK_LIMIT};

const MARK: u64 = 0xA5A5_A5A5_A5A5_A5A5;

/// The refusal of a book, which writes no deal and leaves the list untouched.
fn refused(book: &[u8], length: usize) -> u64 {
    let mut results = vec![MARK; length];
    let BookReply { refusal, deals } = answer_book_numbers(book, &mut results);
    assert_eq!(answer_book(book, &mut results), Err(Refusal(refusal)));
    assert_eq!(deals, 0);
    assert!(results.iter().all(|number| *number == MARK));
    refusal
}

#[test]
fn sample_with_lists_of_every_length() {
    assert_eq!(ANSWER_LENGTH * 3, 12);
    for length in 0..12 {
        assert_eq!(refused(SAMPLE, length), 13);
    }
    for length in 12..20 {
        let mut results = vec![MARK; length];
        assert_eq!(answer_book(SAMPLE, &mut results), Ok(3));
        assert_eq!(results[..12], SAMPLE_RESULTS);
        assert!(results[12..].iter().all(|number| *number == MARK));
    }
}

#[test]
fn header() {
    for book in [
        b"" as &[u8],
        b"CRM\t1",
        b"CRM\t1\r\n",
        b"CRM\t0\n",
        b"CRM\t4\n",
        b"CRM\t03\n",
        b"CRM\t12\n",
        b"CRM\t\n",
        b"CRM\n",
        b"CRM\t2\t\n",
        b"CRM\t3\tS\n",
        b"CRM\t3",
        b"CRM 1\n",
        b"\n",
        &SAMPLE[6..],
    ] {
        assert_eq!(refused(book, 12), 9);
    }
    for book in [b"CRM\t1\n", b"CRM\t2\n", b"CRM\t3\n"] {
        assert_eq!(answer_book(book, &mut []), Ok(0));
    }
}

#[test]
fn second_line() {
    for book in [
        b"CRM\t1\n\n" as &[u8],
        b"CRM\t1\nD",
        b"CRM\t1\nD 1\n",
        b"CRM\t1\nd\t1\n",
        b"CRM\t1\nCRM\t1\n",
        b"CRM\t2\n\n",
        b"CRM\t2\nCRM\t2\n",
        b"CRM\t2\nG\t1\nD\t1\n",
        b"CRM\t1\nC\t1\nD\t1\n",
    ] {
        assert_eq!(refused(book, 0), 12);
        assert_eq!(refused(book, 12), 12);
    }
}

#[test]
fn length() {
    let mut book = b"CRM\t1\nD\t".to_vec();
    book.resize(BOOK_LIMIT, b'x');
    let mut results = [MARK; 5];
    assert_eq!(answer_book(&book, &mut results), Ok(1));
    assert_eq!(results, [1, 11, 2, 0, MARK]);
    book.push(b'\n');
    assert_eq!(refused(&book, 5), 10);
    // 10 comes before 9.
    assert_eq!(refused(&vec![b'x'; BOOK_LIMIT + 1], 5), 10);
    assert_eq!(refused(&vec![b'x'; BOOK_LIMIT], 5), 9);
}

#[test]
fn every_line_opening_a_deal_needs_four_numbers() {
    let book = b"CRM\t1\nD\t\nx\nD\tD\t";
    assert_eq!(refused(book, 7), 13);
    let mut results = [MARK; 9];
    assert_eq!(answer_book(book, &mut results), Ok(2));
    assert_eq!(results, [1, 11, 2, 0, 2, 11, 4, 0, MARK]);
}
