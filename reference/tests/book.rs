//! Answering a book: its own refusals, refusal 11, serials and line numbers.

mod common;

use common::*;
use reference::{answer_book, deals, printed, BookReply, DealRead, Terms};

const UNTOUCHED: u64 = 0xDEAD_BEEF;

/// Answers with a list of `room` numbers; gives the reply and the list.
fn answer_with(room: usize, book: &[u8]) -> (BookReply, Vec<u64>) {
    let mut results = vec![UNTOUCHED; room];
    let reply = answer_book(book, &mut results);
    let written = if reply.refusal == 0 {
        4 * reply.deals
    } else {
        assert_eq!(reply.deals, 0);
        0
    };
    assert!(results[written..].iter().all(|&n| n == UNTOUCHED));
    results.truncate(written);
    (reply, results)
}

/// The refusal of a book, with ample room for results.
fn refusal(book: &[u8]) -> u64 {
    let refusal = answer_with(100_000, book).0.refusal;
    assert_eq!(deals(book).err().unwrap_or(0), refusal);
    refusal
}

/// The four numbers of each deal of the lines behind a header of edition 1.
fn answers(lines: &str) -> Vec<[u64; 4]> {
    answers_under(1, lines)
}

/// The same behind the header of an edition.
fn answers_under(edition: u64, lines: &str) -> Vec<[u64; 4]> {
    let book = header(edition) + lines;
    let (reply, results) = answer_with(1_000, book.as_bytes());
    assert_eq!(reply.refusal, 0);
    results
        .chunks_exact(4)
        .map(|four| [four[0], four[1], four[2], four[3]])
        .collect()
}

fn d() -> String {
    terms_line(&TERMS)
}

fn c() -> String {
    collateral_line(&CASH)
}

fn g() -> String {
    guarantee_line(&GUARANTEE, 1)
}

/// Books whose first line is wrong.
const WRONG_HEADERS: [&[u8]; 37] = [
    b"",
    b"\n",
    b"C",
    b"CRM\t1",
    b"CRM\t1\r\n",
    b"CRM 1\n",
    b"CRM\t\n",
    b"CRM\t0\n",
    b"CRM\t4\n",
    b"CRM\t9\n",
    b"CRM\t11\n",
    b"CRM\t12\n",
    b"CRM\t21\n",
    b"CRM\t01\n",
    b"CRM\t02\n",
    b"CRM\t+2\n",
    b"CRM\t1\t\n",
    b"CRM\t2\t\n",
    b"CRM\t2\t1\n",
    b"CRM\t2",
    b"CRM\t2\r\n",
    b"CRM\t3",
    b"CRM\t3\r\n",
    b"CRM\t3\t\n",
    b"CRM\t3\t3\n",
    b"CRM\t03\n",
    b"CRM\t33\n",
    b"CRM\t13\n",
    b"CRM 3\n",
    b"CRM 2\n",
    b"crm\t2\n",
    b"CRM\tCRM\t2\n",
    b"crm\t1\n",
    b" CRM\t1\n",
    b"\nCRM\t1\n",
    b"RESULT\t1\n",
    b"\xef\xbb\xbfCRM\t1\n",
];

#[test]
fn refusal_9_wrong_first_line() {
    for book in WRONG_HEADERS {
        assert_eq!(refusal(book), 9, "{book:?}");
    }
}

#[test]
fn refusal_10_comes_first() {
    assert_eq!(refusal(&vec![b'x'; 65_537]), 10);
    assert_eq!(refusal(&vec![b'x'; 65_536]), 9);
    for edition in EDITIONS {
        let mut book = (header(edition) + &d()).into_bytes();
        book.resize(65_536, b'\n');
        assert_eq!(refusal(&book), 0);
        book.push(b'\n');
        assert_eq!(refusal(&book), 10);
        assert_eq!(printed(&book), b"REFUSED\t10\n");
    }
}

#[test]
fn refusal_12_second_line_opens_no_deal() {
    for second in ["\n", "D", "D\n", "D 1\n", "d\t\n", "C\t1\n", "X", " D\t\n"] {
        for header in EDITIONS.map(header) {
            let book = format!("{header}{second}");
            assert_eq!(refusal(book.as_bytes()), 12, "{book:?}");
            let book = format!("{header}{second}\n{}", d());
            assert_eq!(refusal(book.as_bytes()), 12, "{book:?}");
        }
    }
    assert_eq!(answer_with(0, b"CRM\t1\nX\n").0.refusal, 12);
    assert_eq!(printed(b"CRM\t2\nX\n"), b"REFUSED\t12\n");
    assert_eq!(printed(b"CRM\t1\n\n"), b"REFUSED\t12\n");
}

#[test]
fn refusal_13_room_for_every_deal() {
    let book = format!("CRM\t1\n{}{}D\tx\nD\t", d(), c()).into_bytes();
    for room in 0..12 {
        assert_eq!(answer_with(room, &book).0.refusal, 13, "{room}");
    }
    for room in 12..20 {
        let reply = answer_with(room, &book).0;
        assert_eq!(
            reply,
            BookReply {
                refusal: 0,
                deals: 3
            }
        );
    }
}

#[test]
fn a_header_alone_is_a_book_of_no_deals() {
    for header in EDITIONS.map(header) {
        let book = header.as_bytes();
        for room in [0, 1, 4] {
            let reply = answer_with(room, book).0;
            assert_eq!(
                reply,
                BookReply {
                    refusal: 0,
                    deals: 0
                }
            );
        }
        assert_eq!(printed(book), b"RESULT\t1\n");
        assert_eq!(deals(book), Ok(Vec::new()));
    }
}

#[test]
fn the_program_has_room_for_2048_deals() {
    let mut book = b"CRM\t1\n".to_vec();
    book.extend(b"D\t\n".repeat(2_048));
    let text = String::from_utf8(printed(&book)).expect("plain text");
    assert_eq!(text.lines().count(), 2_049);
    assert!(text.ends_with("\n2048\t11\t2049\t0\n"));
    book.extend(b"D\t");
    assert_eq!(printed(&book), b"REFUSED\t13\n");
    assert_eq!(deals(&book).map(|deals| deals.len()), Ok(2_049));
}

#[test]
fn refused_lines_answer_by_their_number() {
    let bad = "X\n";
    let lines = [d(), c(), bad.into(), g(), d(), g(), d(), bad.into()].concat();
    let found = answers(&lines);
    assert_eq!(found[0], [1, 11, 4, 0]);
    assert_eq!(found[1], [2, 0, 1_000_000, 999_000]);
    assert_eq!(found[2], [3, 11, 9, 0]);
}

#[test]
fn the_first_refused_line_answers() {
    let over = Terms {
        amount: 1_000_000_000_001,
        ..TERMS
    };
    let over = terms_line(&over);
    assert_eq!(answers(&[over, "X\n".into(), c()].concat()), [[1, 1, 2, 0]]);
    let full = [d(), c().repeat(17), "X\n".into()].concat();
    assert_eq!(answers(&full), [[1, 6, 19, 0]]);
    let full = [d(), g().repeat(16), c().repeat(16), g()].concat();
    assert_eq!(answers(&full), [[1, 6, 35, 0]]);
}

#[test]
fn refusal_11_comes_before_the_operations_own() {
    let over = "D\t1000000000001\t3\t0\t978\t3\t1\t1800\t1\t0\t0x\n";
    assert_eq!(answers(over), [[1, 11, 2, 0]]);
    let malformed = [d(), c().repeat(16), "C\t1\n".into()].concat();
    assert_eq!(answers(&malformed), [[1, 11, 19, 0]]);
    let fourteen = "D\t10000000000000\t3\t0\t978\t3\t1\t1800\t1\t0\t0\n";
    assert_eq!(answers(fourteen), [[1, 11, 2, 0]]);
    let thirteen = "D\t9999999999999\t3\t0\t978\t3\t1\t1800\t1\t0\t0\n";
    assert_eq!(answers(thirteen), [[1, 1, 2, 0]]);
}

#[test]
fn thirteen_digits_reach_the_operation_uncut() {
    // 2^17 + 1, 2^32 + 1 and 2^40 + 1 would pass if cut to fewer bits.
    const LARGE: [u64; 5] = [
        4_294_967_297,
        4_294_967_296,
        1_099_511_627_777,
        131_073,
        9_999_999_999_999,
    ];
    // The refusals of the fields behind the amount, under each edition.
    let refusals = [
        (1, &[2, 3, 4, 2, 5, 5, 2, 3, 5][..]),
        (2, &[2, 3, 3, 4, 2, 5, 5, 2, 3, 5]),
        (3, &[2, 3, 3, 4, 2, 5, 5, 2, 3, 5]),
    ];
    for (edition, refusals) in refusals {
        let sound = sent_terms(&Terms { edition, ..TERMS });
        assert_eq!(sound.len(), 1 + refusals.len());
        for (place, &refusal) in (1..).zip(refusals) {
            for number in LARGE {
                let mut fields = sound.clone();
                fields[place] = number;
                let found = answers_under(edition, &line('D', &fields));
                assert_eq!(found, [[1, refusal, 2, 0]], "{fields:?}");
            }
        }
    }
}

#[test]
fn odd_lines_belong_to_the_deal_above() {
    for odd in [
        "\n", "D\n", "d\t1\n", "CRM\t1\n", "CRM\t2\n", "CRM\t3\n", "\t\n", "#\n", " D\t1\n",
        "\r\n", "C\n", "G\n", "C\t\n", "DD\t1\n",
    ] {
        let lines = [d(), odd.into(), d()].concat();
        let found = answers(&lines);
        assert_eq!(found[0], [1, 11, 3, 0], "{odd:?}");
        assert_eq!(found[1], [2, 0, 1_000_000, 1_000_000], "{odd:?}");
    }
}

#[test]
fn a_last_line_without_line_feed_is_refused() {
    for (text, line) in [(c(), 3), (g(), 3), ("X\n".into(), 3)] {
        let cut = &text[..text.len() - 1];
        assert_eq!(answers(&(d() + cut)), [[1, 11, line, 0]]);
    }
    let cut = d().trim_end().to_string();
    assert_eq!(answers(&cut), [[1, 11, 2, 0]]);
    let found = answers(&(d() + &cut));
    assert_eq!(found[0][1], 0);
    assert_eq!(found[1], [2, 11, 3, 0]);
    assert_eq!(answers("D\t"), [[1, 11, 2, 0]]);
}

#[test]
fn deals_are_read_with_their_refused_lines() {
    let lines = [d(), c(), g(), d(), g(), "X\n".into()].concat();
    let book = format!("CRM\t1\n{lines}");
    let expected = vec![
        DealRead::Accepted(Box::new(deal(TERMS, &[CASH], &[GUARANTEE]))),
        DealRead::Refused {
            refusal: 11,
            line: 7,
        },
    ];
    assert_eq!(deals(book.as_bytes()), Ok(expected));
}
