//! Repairing a book that came by mail (02: L14): the lent buffers, the refusals
//! in their order, the longest books, and what the program prints.

mod common;

use common::*;
use reference::{printed_repair, refusal, repair_book, RepairReply};

const LONGEST: usize = 65_536;

/// Nine bytes when repaired, on four lines of which three are altered.
const MAILED: &[u8] = b"A  0\r\n\n \r\r\n0 ";
const REPAIRED: &[u8] = b"A\t0\n\n\t\n0\t";
const ALTERED: [u64; 3] = [1, 3, 4];
const NEEDED: [usize; 2] = [REPAIRED.len(), ALTERED.len()];

/// The refusal with buffers of the lengths, every place of which must stay. No
/// two places near each other hold the same.
fn refusal_of(book: &[u8], room: [usize; 2]) -> u64 {
    let text: Vec<u8> = (1..=250).cycle().take(room[0]).collect();
    let list: Vec<u64> = (1_000_000..).take(room[1]).collect();
    let (mut repaired, mut altered) = (text.clone(), list.clone());
    let reply = repair_book(book, &mut repaired, &mut altered);
    let expected = RepairReply {
        refusal: reply.refusal,
        bytes: 0,
        lines: 0,
    };
    assert_ne!(reply.refusal, 0);
    assert_eq!(reply, expected);
    assert_eq!(repaired, text);
    assert_eq!(altered, list);
    reply.refusal
}

/// Checks the result in buffers of the lengths, whose places behind it must
/// stay.
fn assert_written(room: [usize; 2]) {
    let (reply, mut text, mut list) = repair_with(MAILED, room);
    let expected = RepairReply {
        refusal: 0,
        bytes: NEEDED[0],
        lines: NEEDED[1],
    };
    assert_eq!(reply, expected, "{room:?}");
    let text_behind = text.split_off(NEEDED[0]);
    let list_behind = list.split_off(NEEDED[1]);
    assert_eq!((&text[..], &list[..]), (REPAIRED, &ALTERED[..]));
    assert_eq!(text_behind, vec![FILL.0; room[0] - NEEDED[0]]);
    assert_eq!(list_behind, vec![FILL.1; room[1] - NEEDED[1]]);
}

#[test]
fn refusals_have_the_numbers_of_the_paper() {
    let numbers = [refusal::LENGTH, refusal::REPAIRED, refusal::ALTERED];
    assert_eq!(numbers, [10, 20, 41]);
}

#[test]
fn buffers_of_the_length_needed_or_longer_are_written() {
    for more_bytes in [0, 1, 2, 100] {
        for more_lines in [0, 1, 2, 100] {
            assert_written([NEEDED[0] + more_bytes, NEEDED[1] + more_lines]);
        }
    }
}

#[test]
fn refusal_20_buffer_shorter_than_the_result() {
    for bytes in 0..NEEDED[0] {
        assert_eq!(refusal_of(MAILED, [bytes, NEEDED[1]]), 20);
        assert_eq!(refusal_of(MAILED, [bytes, 100]), 20);
    }
    for book in [&b"A"[..], b"\n", b"\r", b"\t", b" ", b"   ", b"\r\n"] {
        assert_eq!(refusal_of(book, [0, 9]), 20, "{book:?}");
    }
}

#[test]
fn refusal_41_list_shorter_than_the_altered_lines() {
    for lines in 0..NEEDED[1] {
        assert_eq!(refusal_of(MAILED, [NEEDED[0], lines]), 41);
        assert_eq!(refusal_of(MAILED, [100, lines]), 41);
    }
    for book in [&b" "[..], b"A  0", b"\r\n", b"\n\r\r\n"] {
        assert_eq!(refusal_of(book, [9, 0]), 41, "{book:?}");
    }
}

#[test]
fn refusal_20_comes_before_41() {
    for bytes in 0..NEEDED[0] {
        for lines in 0..NEEDED[1] {
            assert_eq!(refusal_of(MAILED, [bytes, lines]), 20);
        }
    }
}

#[test]
fn the_result_is_measured_and_not_the_book() {
    let (reply, text, list) = repair_with(&[b' '; LONGEST], [1, 1]);
    assert_eq!(
        [reply.refusal, reply.bytes as u64, reply.lines as u64],
        [0, 1, 1]
    );
    assert_eq!((text, list), (b"\t".to_vec(), vec![1]));
    let returns = [b"\r".repeat(9), b"\n".to_vec()].concat();
    assert_eq!(repair_with(&returns, [1, 1]).0.refusal, 0);
}

#[test]
fn what_needs_no_room_is_given_none() {
    let reply = |bytes| RepairReply {
        refusal: 0,
        bytes,
        lines: 0,
    };
    assert_eq!(repair_with(b"", [0, 0]).0, reply(0));
    assert_eq!(repair_with(b"", [5, 5]).0, reply(0));
    assert_eq!(repair_with(b"A\r0\n\n", [5, 0]).0, reply(5));
    assert_eq!(refusal_of(b"A\r0\n\n", [4, 0]), 20);
}

#[test]
fn refusal_10_book_longer_than_65536_bytes() {
    for byte in *b" \t\r\nA\0\xff" {
        let book = [byte; LONGEST + 1];
        assert_eq!(repair_with(&book[1..], [LONGEST; 2]).0.refusal, 0);
        assert_eq!(refusal_of(&book, [LONGEST + 1; 2]), 10);
    }
    // The book that was sent is measured, be its repair as short as it may.
    let returns = [b"\r".repeat(LONGEST), b"\n".to_vec()].concat();
    assert_eq!(refusal_of(&returns, [9, 9]), 10);
    assert_eq!(refusal_of(&vec![b' '; 1_000_000], [9, 9]), 10);
}

#[test]
fn refusal_10_comes_first() {
    for room in [[0, 0], [0, 9], [9, 0], [9, 9]] {
        assert_eq!(refusal_of(&[b' '; LONGEST + 1], room), 10);
        assert_eq!(refusal_of(&[b'A'; LONGEST + 1], room), 10);
    }
    assert_eq!(refusal_of(&[b' '; LONGEST], [0, 0]), 20);
    assert_eq!(refusal_of(&[b' '; LONGEST], [1, 0]), 41);
    assert_eq!(refusal_of(&[b'A'; LONGEST], [LONGEST - 1, 0]), 20);
}

#[test]
fn the_longest_runs_are_mended() {
    assert_eq!(repaired(&[b' '; LONGEST]), (b"\t".to_vec(), vec![1]));
    let spaces = [b" ".repeat(LONGEST - 1), b"\n".to_vec()].concat();
    assert_eq!(repaired(&spaces), (b"\t\n".to_vec(), vec![1]));
    let unended = [b'\r'; LONGEST];
    assert_eq!(repaired(&unended), (unended.to_vec(), vec![]));
    let ended = [b"\r".repeat(LONGEST - 1), b"\n".to_vec()].concat();
    assert_eq!(repaired(&ended), (b"\n".to_vec(), vec![1]));
    let behind = [b"\n".to_vec(), b"\r".repeat(LONGEST - 1)].concat();
    assert_eq!(repaired(&behind), (behind.clone(), vec![]));
}

#[test]
fn the_most_lines_are_mended() {
    let numbered = |most| (1..=most).collect::<Vec<u64>>();
    assert_eq!(
        repaired(&b"\r\n".repeat(LONGEST / 2)),
        (b"\n".repeat(LONGEST / 2), numbered(32_768))
    );
    assert_eq!(
        repaired(&b" \n".repeat(LONGEST / 2)),
        (b"\t\n".repeat(LONGEST / 2), numbered(32_768))
    );
    assert_eq!(
        repaired(&b"\n".repeat(LONGEST)),
        (b"\n".repeat(LONGEST), vec![])
    );
    assert_eq!(
        repaired(&b"\r ".repeat(LONGEST / 2)),
        (b"\r\t".repeat(LONGEST / 2), vec![1])
    );
}

#[test]
fn the_repaired_book_and_the_altered_lines_are_printed_apart() {
    let many = b"\r\n".repeat(LONGEST / 2);
    let numbers: String = (1..=32_768).map(|line| format!("{line}\n")).collect();
    for (book, output, error) in [
        (MAILED, REPAIRED, &b"1\n3\n4\n"[..]),
        (b"", b"", b""),
        (b"A\t0\n", b"A\t0\n", b""),
        (b"A\r", b"A\r", b""),
        (&many, &b"\n".repeat(LONGEST / 2), numbers.as_bytes()),
        (&[b'A'; LONGEST], &[b'A'; LONGEST], b""),
        (&[b' '; LONGEST + 1], b"", b"REFUSED\t10\n"),
    ] {
        assert_eq!(printed_repair(book), (output.to_vec(), error.to_vec()));
        let printed = program(&["repair"], book);
        assert!(printed.status.success());
        assert_eq!((&printed.stdout[..], &printed.stderr[..]), (output, error));
    }
}

#[test]
fn the_program_knows_its_arguments() {
    let book = tabbed(EXAMPLE);
    for (arguments, expected) in [
        (&[][..], reference::printed(&book)),
        (&["report"], reference::printed_reports(&book)),
        (&["repair"], book.clone()),
    ] {
        let printed = program(arguments, &book);
        assert!(printed.status.success());
        assert_eq!((printed.stdout, printed.stderr), (expected, vec![]));
    }
    for arguments in [&["mend"][..], &["repair", "report"], &["repair", ""]] {
        let printed = program(arguments, b"");
        assert_eq!(printed.status.code(), Some(2));
        assert_eq!(printed.stdout, b"");
        assert!(printed.stderr.starts_with(b"usage: "));
    }
}
