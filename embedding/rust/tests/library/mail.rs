//! Books that came by mail: both lists byte by byte, the refusals at their edges, and
//! every short book against a repair that is worked out here.

use crate::sample::{mailed, CASH, LOAN, SAMPLE, SAMPLE_RESULTS};
use hadlephoga::{
    answer_book, answer_book_numbers, layout, repair_book, repair_book_numbers, report, BookReply,
    Record, Refusal, RepairReply, Repaired, BOOK_LIMIT, LAYOUT,
};

const MARK: u64 = 0xA5A5_A5A5_A5A5_A5A5;
const BYTE_MARK: u8 = 0xA5;
/// Places on either side of a lent list.
const MARGIN: usize = 3;

/// The repair that is due, run by run; a line is altered where its bytes differ.
fn due(book: &[u8]) -> Repaired {
    let mut repaired = Vec::new();
    let mut runs = book.chunk_by(|one, next| one == next).peekable();
    while let Some(run) = runs.next() {
        let before_feed = runs.peek().is_some_and(|next| next[0] == b'\n');
        match run[0] {
            b' ' => repaired.push(b'\t'),
            b'\r' if before_feed => {}
            _ => repaired.extend(run),
        }
    }
    let before = lines(book);
    let after = lines(&repaired);
    assert_eq!(before.len(), after.len());
    let pairs = (1..).zip(before.iter().zip(&after));
    let altered = pairs.filter(|(_, (before, after))| before != after);
    Repaired {
        altered: altered.map(|(number, _)| number).collect(),
        book: repaired,
    }
}

fn lines(book: &[u8]) -> Vec<&[u8]> {
    book.split_inclusive(|byte| *byte == b'\n').collect()
}

/// A list of marks with these at its front, in its margins.
fn marked<Item: Copy>(mark: Item, length: usize, front: &[Item]) -> Vec<Item> {
    let mut list = vec![mark; MARGIN + length + MARGIN];
    list[MARGIN..MARGIN + front.len()].copy_from_slice(front);
    list
}

/// Repairs into lists of these lengths: the reply, both lists and their margins are
/// those that are due. Gives the refusal.
fn repaired_into(book: &[u8], due: &Repaired, room: usize, places: usize) -> u64 {
    let mut bytes = marked(BYTE_MARK, room, &[]);
    let mut numbers = marked(MARK, places, &[]);
    let reply = repair_book_numbers(
        book,
        &mut bytes[MARGIN..MARGIN + room],
        &mut numbers[MARGIN..MARGIN + places],
    );
    let refusal = if book.len() > BOOK_LIMIT {
        10
    } else if room < due.book.len() {
        20
    } else if places < due.altered.len() {
        41
    } else {
        0
    };
    let (front, altered) = match refusal {
        0 => (&due.book[..], &due.altered[..]),
        _ => (&[][..], &[][..]),
    };
    let due = RepairReply {
        refusal,
        bytes: front.len() as u64,
        lines: altered.len() as u64,
    };
    assert_eq!(reply, due, "{room} bytes, {places} numbers");
    assert!(bytes == marked(BYTE_MARK, room, front));
    assert!(numbers == marked(MARK, places, altered));
    refusal
}

/// None, one too few, as many as are due, one more, and as many as always suffice.
fn lengths(exact: usize, enough: usize) -> [usize; 5] {
    assert!(exact <= enough);
    [0, exact.saturating_sub(1), exact, exact + 1, enough]
}

/// The repair of a book, looked at with lists of every length at an edge.
fn repaired(book: &[u8]) -> Repaired {
    let due = due(book);
    for room in lengths(due.book.len(), book.len()) {
        for places in lengths(due.altered.len(), lines(book).len()) {
            repaired_into(book, &due, room, places);
        }
    }
    assert!(due.altered.is_sorted_by(|one, next| one < next));
    assert_eq!(repair_book(book).as_ref(), Ok(&due));
    due
}

/// Refused with 10, whatever the lists are.
fn too_long(book: &[u8]) {
    let due = due(book);
    for room in lengths(due.book.len(), book.len()) {
        for places in lengths(due.altered.len(), lines(book).len()) {
            assert_eq!(repaired_into(book, &due, room, places), 10);
        }
    }
    assert_eq!(repair_book(book), Err(Refusal(10)));
}

/// Nothing is altered in what was repaired.
fn settled(repaired: &Repaired) {
    let again = repair_book(&repaired.book).expect("a repaired book");
    assert!(again.book == repaired.book);
    assert_eq!(again.altered, []);
    assert_eq!(repaired_into(&again.book, &again, again.book.len(), 0), 0);
}

#[test]
fn by_hand() {
    for (mailed, book, altered) in [
        ("", "", &[][..]),
        ("CRM 1\r\n", "CRM\t1\n", &[1]),
        ("CRM\t1\n", "CRM\t1\n", &[]),
        // The last line has no line feed, and none is behind a last one.
        ("a\n b", "a\n\tb", &[2]),
        ("a\r\n\n", "a\n\n", &[1]),
        // A run is one tab, beside a tab one more.
        ("a   b \t c\n", "a\tb\t\t\tc\n", &[1]),
        (" \n   \n\t\n", "\t\n\t\n\t\n", &[1, 2]),
        // Every return of a run at a line feed; any other stays.
        ("a\r\r\r\n\r\n", "a\n\n", &[1, 2]),
        ("\ra\r\rb\n", "\ra\r\rb\n", &[]),
        ("a\r\n\r", "a\n\r", &[1]),
        ("a\r \r\n", "a\r\t\n", &[1]),
        ("a\r \n", "a\r\t\n", &[1]),
        ("\n\r\n\n \n\n", "\n\n\n\t\n\n", &[2, 4]),
        // Bytes of any other kind.
        (
            "\0\u{b}\u{c}\u{a0} \u{2028}",
            "\0\u{b}\u{c}\u{a0}\t\u{2028}",
            &[1],
        ),
    ] {
        let due = Repaired {
            book: book.into(),
            altered: altered.to_vec(),
        };
        assert_eq!(repaired(mailed.as_bytes()), due, "{mailed:?}");
        settled(&due);
    }
}

/// Every book of up to six bytes, with one that stays.
#[test]
fn every_short_book() {
    let mut books = vec![Vec::new()];
    for _ in 0..=6 {
        let mut longer = Vec::new();
        for book in books {
            settled(&repaired(&book));
            longer.extend(b" \t\r\nx".map(|byte| [&book[..], &[byte]].concat()));
        }
        books = longer;
    }
}

/// Each byte, alone and between such as are altered.
#[test]
fn every_byte() {
    for byte in 0..=u8::MAX {
        settled(&repaired(&[byte]));
        settled(&repaired(&[b' ', byte, b'\r', byte, b'\r', b'\n', byte]));
    }
}

/// Every length of both lists, each with the refusal that is due, at the sample.
#[test]
fn lists_of_every_length() {
    let book = mailed("  ", "\r\n");
    let due = repaired(&book);
    assert_eq!([due.book.len(), due.altered.len()], [SAMPLE.len(), 6]);
    for room in 0..=SAMPLE.len() + 2 {
        for places in 0..=8 {
            let refusal = match (room < SAMPLE.len(), places < 6) {
                (true, _) => 20,
                (false, true) => 41,
                (false, false) => 0,
            };
            assert_eq!(repaired_into(&book, &due, room, places), refusal);
        }
    }
}

/// What stands behind a book's end is not looked at, be it a line feed or a space.
#[test]
fn every_beginning_of_the_sample() {
    let book = mailed("   ", "\r\r\n");
    for length in 0..=book.len() {
        settled(&repaired(&book[..length]));
    }
}

#[test]
fn longest_books() {
    for unit in ["x", " ", "\r", "\n", " \n", "\r\n", "x \r\n", "\r \t\n"] {
        let mut book = unit.as_bytes().repeat(BOOK_LIMIT / unit.len());
        assert_eq!(book.len(), BOOK_LIMIT);
        settled(&repaired(&book));
        for byte in *b"x \r\n" {
            book.push(byte);
            too_long(&book);
            book.pop();
        }
    }
    too_long(&b" \r\n".repeat(BOOK_LIMIT));
}

#[test]
fn longest_runs() {
    let one_line = |book: &[u8], altered: &[u64]| Repaired {
        book: book.to_vec(),
        altered: altered.to_vec(),
    };
    assert_eq!(repaired(&[b' '; BOOK_LIMIT]), one_line(b"\t", &[1]));
    let mut returns = [b'\r'; BOOK_LIMIT];
    assert!(repaired(&returns) == one_line(&returns, &[]));
    returns[BOOK_LIMIT - 1] = b'\n';
    assert_eq!(repaired(&returns), one_line(b"\n", &[1]));
    // A number for every second byte.
    let altered = repaired(&b" \n".repeat(BOOK_LIMIT / 2)).altered;
    assert!(altered.into_iter().eq(1..=BOOK_LIMIT as u64 / 2));
}

#[test]
fn empty_book() {
    let reply = RepairReply {
        refusal: 0,
        bytes: 0,
        lines: 0,
    };
    assert_eq!(repair_book_numbers(&[], &mut [], &mut []), reply);
    let (mut bytes, mut numbers) = ([BYTE_MARK; 2], [MARK; 2]);
    assert_eq!(repair_book_numbers(b"", &mut bytes, &mut numbers), reply);
    assert_eq!((bytes, numbers), ([BYTE_MARK; 2], [MARK; 2]));
    // Neither list is looked at before it is due.
    for (book, refusal) in [(&b" "[..], 20), (&[b' '; BOOK_LIMIT + 1], 10)] {
        let refused = RepairReply { refusal, ..reply };
        assert_eq!(repair_book_numbers(book, &mut [], &mut []), refused);
    }
    let refused = RepairReply {
        refusal: 41,
        ..reply
    };
    assert_eq!(repair_book_numbers(b" ", &mut bytes, &mut []), refused);
    assert_eq!(bytes, [BYTE_MARK; 2]);
}

/// Long books of bytes that come as they like.
#[test]
fn mixed_books() {
    let mut state = 1u64;
    for length in (0..=BOOK_LIMIT).step_by(4096) {
        let mut byte = || {
            state = state.wrapping_mul(6364136223846793005).wrapping_add(1);
            b"  \t\r\r\nDx"[(state >> 61) as usize]
        };
        let book: Vec<u8> = (0..length).map(|_| byte()).collect();
        settled(&repaired(&book));
    }
}

/// The mailed sample is no book; repaired it is the sample, with its answer.
#[test]
fn answered_as_the_original() {
    for (tab, feed, altered) in [
        ("\t", "\n", &[][..]),
        (" ", "\n", &[1, 2, 3, 4, 5, 6]),
        ("\t", "\r\n", &[1, 2, 3, 4, 5, 6]),
        ("        ", "\r\r\n", &[1, 2, 3, 4, 5, 6]),
    ] {
        let book = mailed(tab, feed);
        let refusal = if altered.is_empty() { 0 } else { 9 };
        let mut results = [MARK; 13];
        assert_eq!(answer_book_numbers(&book, &mut results).refusal, refusal);
        let repaired = repaired(&book);
        assert!(repaired.book == SAMPLE);
        assert_eq!(repaired.altered, altered);
        assert_eq!(answer_book(&repaired.book, &mut results), Ok(3));
        assert_eq!(results[..12], SAMPLE_RESULTS);
        assert_eq!(results[12], MARK);
    }
}

/// What else the library gives is the same before and behind a repair, and answering
/// repairs nothing.
#[test]
fn nothing_else_is_changed() {
    let record = Record::new(LOAN, &[CASH], &[]);
    let others = || {
        let mut results = [MARK; 13];
        let reply = answer_book_numbers(SAMPLE, &mut results);
        (layout(), reply, results, report(&record))
    };
    let before = others();
    assert_eq!([before.0, LAYOUT], [4, 4]);
    let deals = 3;
    assert_eq!(before.1, BookReply { refusal: 0, deals });
    let book = mailed(" ", "\r\n");
    let due = repaired(&book);
    for (room, places) in [(0, 6), (SAMPLE.len(), 5), (SAMPLE.len(), 6)] {
        repaired_into(&book, &due, room, places);
        assert_eq!(others(), before);
    }
    let mut results = [MARK; 12];
    assert_eq!(answer_book(&book, &mut results), Err(Refusal(9)));
    assert_eq!(results, [MARK; 12]);
}
