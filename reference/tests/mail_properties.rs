//! What must hold of every repair of a book (02: L14), on all short texts, on
//! random ones, and on books that a mail program has mangled.

mod common;

use common::*;
use reference::{printed, printed_reports, Record};

const ROUNDS: u64 = 20_000;
const ALPHABET: [u8; 8] = [b' ', b'\t', b'\r', b'\n', b'A', b'0', 0, 0xFF];

/// Every `from`, looked for from the front, gives way to `to`.
fn replaced(text: &[u8], from: &[u8], to: &[u8]) -> Vec<u8> {
    let mut changed = Vec::new();
    let mut rest = text;
    while let Some(&first) = rest.first() {
        if let Some(behind) = rest.strip_prefix(from) {
            changed.extend(to);
            rest = behind;
        } else {
            changed.push(first);
            rest = &rest[1..];
        }
    }
    changed
}

/// Replaces until nothing changes.
fn replaced_throughout(mut text: Vec<u8>, from: &[u8], to: &[u8]) -> Vec<u8> {
    loop {
        let changed = replaced(&text, from, to);
        if changed == text {
            return text;
        }
        text = changed;
    }
}

/// The repair by replacements over the whole text.
fn by_replacement(book: &[u8]) -> Vec<u8> {
    let single = replaced_throughout(book.to_vec(), b"  ", b" ");
    let tabbed = replaced(&single, b" ", b"\t");
    replaced_throughout(tabbed, b"\r\n", b"\n")
}

fn lines(text: &[u8]) -> Vec<&[u8]> {
    text.split_inclusive(|&byte| byte == b'\n').collect()
}

/// The numbers of the lines that differ between texts of as many lines.
fn differing(one: &[u8], other: &[u8]) -> Vec<u64> {
    let (one, other) = (lines(one), lines(other));
    assert_eq!(one.len(), other.len());
    (1..)
        .zip(one.iter().zip(other))
        .filter(|(_, (before, after))| *before != after)
        .map(|(number, _)| number)
        .collect()
}

/// The text without all that a repair may touch.
fn untouched(text: &[u8]) -> Vec<u8> {
    let mut rest = replaced_throughout(text.to_vec(), b"\r\n", b"\n");
    rest.retain(|byte| !b" \t".contains(byte));
    rest
}

/// Whether a repair finds nothing to do in the text.
fn is_sound(text: &[u8]) -> bool {
    !text.contains(&b' ') && !text.windows(2).any(|pair| pair == b"\r\n")
}

fn assert_holds(book: &[u8]) {
    let (text, altered) = repaired(book);
    assert_eq!(text, by_replacement(book), "{book:?}");
    assert_eq!(altered, differing(book, &text), "{book:?}");
    assert_eq!(untouched(&text), untouched(book), "{book:?}");
    assert!(is_sound(&text), "{book:?}");
    assert_eq!(altered.is_empty(), is_sound(book), "{book:?}");
    assert_eq!(repaired(&text), (text, vec![]), "{book:?}");
}

#[test]
fn every_short_text_is_repaired() {
    const LETTERS: [u8; 5] = [b' ', b'\t', b'\r', b'\n', b'A'];
    let mut texts = vec![Vec::new()];
    for _ in 0..=6 {
        texts.iter().for_each(|text| assert_holds(text));
        let longer = texts.iter().flat_map(|text| {
            let followed = |letter| [&text[..], &[letter]].concat();
            LETTERS.map(followed)
        });
        texts = longer.collect();
    }
}

/// A text with some runs.
fn random_text(random: &mut Random) -> Vec<u8> {
    let mut text = Vec::new();
    for _ in 0..random.within(0, 40) {
        let letter = ALPHABET[random.within(0, 7) as usize];
        let length = random.pick(&[1, 1, 1, 2, 3, 9]);
        text.extend((0..length).map(|_| letter));
    }
    text
}

#[test]
fn random_texts_are_repaired() {
    let mut random = Random::new(21);
    let mut sound = 0;
    for _ in 0..ROUNDS {
        let book = random_text(&mut random);
        assert_holds(&book);
        sound += u64::from(is_sound(&book));
    }
    assert!(sound > ROUNDS / 50 && sound < ROUNDS / 2, "{sound}");
}

/// A buffer of the room once this is written to its front.
fn filled<T: Copy>(written: &[T], room: usize, fill: T) -> Vec<T> {
    let mut buffer = written.to_vec();
    buffer.resize(room, fill);
    buffer
}

#[test]
fn random_texts_meet_random_buffers() {
    let mut random = Random::new(22);
    let mut seen = [0; 3];
    for _ in 0..ROUNDS {
        let book = random_text(&mut random);
        let text = by_replacement(&book);
        let altered = differing(&book, &text);
        let room = [text.len(), altered.len()]
            .map(|needed| (needed as u64 + random.within(0, 4)).saturating_sub(1) as usize);
        let (reply, buffer, list) = repair_with(&book, room);
        let found = (reply.refusal, reply.bytes, reply.lines);
        let (text, altered, outcome) = if room[0] < text.len() {
            assert_eq!(found, (20, 0, 0));
            (vec![], vec![], 1)
        } else if room[1] < altered.len() {
            assert_eq!(found, (41, 0, 0));
            (vec![], vec![], 2)
        } else {
            assert_eq!(found, (0, text.len(), altered.len()));
            (text, altered, 0)
        };
        assert_eq!(buffer, filled(&text, room[0], FILL.0));
        assert_eq!(list, filled(&altered, room[1], FILL.1));
        seen[outcome] += 1;
    }
    assert!(seen.iter().all(|&times| times > 1_000), "{seen:?}");
}

/// The line as a mail program leaves it: tabs as 1 to 8 spaces, a carriage
/// return or two before its line feed.
fn mangled(random: &mut Random, line: &[u8]) -> Vec<u8> {
    let mut mangled = Vec::new();
    for &byte in line {
        match byte {
            b'\t' => mangled.extend(b" ".repeat(random.within(1, 8) as usize)),
            b'\n' => mangled.extend([b"\r\n", &b"\r\r\n"[..]][random.within(0, 1) as usize]),
            _ => mangled.push(byte),
        }
    }
    mangled
}

/// Checks that the book is had back from a mail program that mangles one line in
/// `one_in`, and is then answered as before.
fn assert_restored(random: &mut Random, book: &[u8], one_in: u64) {
    let (mut mailed, mut touched) = (Vec::new(), Vec::new());
    for (number, line) in (1..).zip(lines(book)) {
        if random.chance(one_in) {
            mailed.extend(mangled(random, line));
            touched.push(number);
        } else {
            mailed.extend(line);
        }
    }
    let (text, altered) = repaired(&mailed);
    assert_eq!(text, book);
    assert_eq!(altered, touched);
    assert_eq!(printed(&text), printed(book));
    assert_eq!(printed_reports(&text), printed_reports(book));
    if touched.first() == Some(&1) {
        assert_eq!(printed(&mailed), b"REFUSED\t9\n");
    }
}

#[test]
fn the_example_book_survives_the_mail() {
    let mut random = Random::new(23);
    let book = tabbed(EXAMPLE);
    let answer = tabbed("RESULT 1\n1 0 611314 411314\n2 3 5 0\n3 0 900 675\n");
    assert_eq!(printed(&book), answer);
    for _ in 0..200 {
        assert_restored(&mut random, &book, 1);
        assert_restored(&mut random, &book, 2);
    }
    // The paper shows tabs as spaces, so that its text can be read as mailed.
    assert_eq!(repaired(EXAMPLE.as_bytes()), (book, (1..=6).collect()));
}

/// The book of one deal.
fn book_with(record: &Record) -> String {
    let terms = &record.terms;
    let collateral = &record.collateral[..record.collateral_count as usize];
    let covers = &record.guarantees[..record.guarantee_count as usize];
    let covers = covers.iter().map(|item| cover_line(item, terms.edition));
    book_of(terms, collateral) + &covers.collect::<String>()
}

#[test]
fn random_books_survive_the_mail() {
    let mut random = Random::new(24);
    for _ in 0..1_000 {
        let mut book = book_with(&random.deal()).into_bytes();
        if random.chance(3) {
            book.pop();
        }
        let one_in = random.within(1, 3);
        assert_restored(&mut random, &book, one_in);
    }
}
