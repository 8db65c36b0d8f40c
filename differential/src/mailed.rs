//! Random texts as they come by mail, each made from a seed, its number and the book of that
//! number alone.

use hadlephoga::BOOK_LIMIT;

use crate::alike::ALIKE;
use crate::mail_limits::{at_limit, WHOLES};
use crate::mangled::{comes_back, mangled, Manner, MANNERS};
use crate::random::Random;

#[derive(Clone, Copy, Debug, PartialEq, Eq, Hash)]
pub enum Kind {
    /// The same under every seed.
    AtLimits,
    /// Few bytes, in any order.
    Bytes,
    /// One unit throughout, of a few bytes.
    Whole,
    /// Runs behind one another, and other bytes.
    Runs,
    /// A run between given neighbours.
    OneRun,
    /// Some 256 lines.
    Lines,
    /// About 65,536 bytes.
    Long,
    /// A book as a mail program leaves it.
    Mangled,
}

const KINDS: &[(u64, Kind)] = &[
    (265, Kind::Bytes),
    (15, Kind::Whole),
    (310, Kind::Runs),
    (360, Kind::OneRun),
    (8, Kind::Lines),
    (2, Kind::Long),
    (40, Kind::Mangled),
];

impl Kind {
    pub fn name(self) -> &'static str {
        match self {
            Kind::AtLimits => "at the limits",
            Kind::Bytes => "few bytes",
            Kind::Whole => "one unit throughout",
            Kind::Runs => "runs",
            Kind::OneRun => "one run",
            Kind::Lines => "some 256 lines",
            Kind::Long => "about 65,536 bytes",
            Kind::Mangled => "mangled books",
        }
    }
}

pub struct Mailed {
    pub kind: Kind,
    pub bytes: Vec<u8>,
    /// What the book went through that must come back.
    pub manner: Option<Manner>,
}

/// Beside the sequences of books and of records.
const STREAM: u64 = 0x6D61_696C;

/// Texts at the limits are long, so they stand apart: a run that ends early has few.
const APART: u64 = 64;

/// The text of this number under this seed, and what the book of that number is.
pub fn mailed(seed: u64, number: u64, book: &[u8]) -> Mailed {
    let random = &mut Random::new(seed ^ STREAM, number);
    let limit = Some(number / APART).filter(|_| number % APART == APART - 1);
    if let Some(bytes) = limit.and_then(at_limit) {
        return Mailed {
            kind: Kind::AtLimits,
            bytes,
            manner: None,
        };
    }
    let kind = random.weighted(KINDS);
    let manner = random.pick(&MANNERS);
    let bytes = match kind {
        Kind::AtLimits | Kind::Whole => random_whole(random),
        Kind::Bytes => few_bytes(random),
        Kind::Runs => runs(random),
        Kind::OneRun => one_run(random),
        Kind::Lines => lines(random),
        Kind::Long => long(random, book),
        Kind::Mangled => mangled(random, book, manner),
    };
    let manner = Some(manner).filter(|_| kind == Kind::Mangled && comes_back(book));
    Mailed {
        kind,
        bytes,
        manner,
    }
}

fn random_whole(random: &mut Random) -> Vec<u8> {
    let length = random.between(1, 40) as usize;
    WHOLES[random.index(WHOLES.len())].text(length)
}

/// Few bytes that count, so that all short texts of them come up.
const ALPHABETS: [&[u8]; 5] = [
    b" \r\n",
    b" \t\r\nA",
    b" \t\r\n\0\xff7",
    b"  \r\r\n\nAB09\t\0\xff",
    b"CRMDCGS01 \t\r\n",
];

fn few_bytes(random: &mut Random) -> Vec<u8> {
    let alphabet = random.pick(&ALPHABETS);
    let any = random.percent(5);
    let length = match random.percent(50) {
        true => random.index(9),
        false => random.index(61),
    };
    let byte = |_| match any {
        true => random.number() as u8,
        false => random.pick(alphabet),
    };
    (0..length).map(byte).collect()
}

/// Each length that cases ask for, and others.
fn run_length(random: &mut Random) -> usize {
    match random.below(24) {
        0..=6 => 1,
        7..=12 => 2,
        13..=16 => 3,
        17..=19 => 8,
        20..=22 => random.between(4, 20) as usize,
        _ => long_run(random),
    }
}

fn long_run(random: &mut Random) -> usize {
    random.between(1000, 1030) as usize
}

fn put_run(text: &mut Vec<u8>, byte: u8, length: usize) {
    text.resize(text.len() + length, byte);
}

fn runs(random: &mut Random) -> Vec<u8> {
    let mut text = Vec::new();
    for _ in 0..random.between(1, 10) {
        let other = random.pick(&ALIKE);
        match random.below(20) {
            0..=4 => put_run(&mut text, b' ', run_length(random)),
            5..=8 => put_run(&mut text, b'\r', run_length(random)),
            9..=11 => text.push(b'\n'),
            12 | 13 => text.push(b'\t'),
            14 => text.extend(b"D\t9"),
            15 => text.push(random.pick(b"A0\xff")),
            16 => text.push(other),
            17 => text.extend([b' ', other, b' ']),
            18 => text.extend([other, b'\n']),
            _ => text.extend([b'\r', other, b'\n']),
        }
    }
    text
}

/// A run of spaces or of returns behind and before each sort of neighbour alike.
fn one_run(random: &mut Random) -> Vec<u8> {
    let (byte, another) = match random.percent(50) {
        true => (b' ', b'\r'),
        false => (b'\r', b' '),
    };
    let length = match random.below(5) {
        0 => long_run(random),
        class => [1, 2, 3, 8][class as usize - 1],
    };
    let mut text = match random.below(5) {
        0 => vec![],
        1 => [few_bytes(random), vec![b'\n']].concat(),
        2 => [few_bytes(random), vec![b'\t']].concat(),
        3 => [few_bytes(random), vec![random.pick(&ALIKE)]].concat(),
        _ => [few_bytes(random), vec![another]].concat(),
    };
    put_run(&mut text, byte, length);
    match random.below(6) {
        0 => return text,
        1 => text.push(b'\n'),
        2 => text.push(b'\t'),
        3 => text.push(random.pick(&ALIKE)),
        // Of a run of spaces: before returns that are dropped, and before others.
        behind => {
            put_run(&mut text, another, run_length(random));
            match behind == 4 {
                true => text.push(b'\n'),
                false if random.percent(30) => return text,
                false => text.push(random.pick(b"\tA\0")),
            }
        }
    }
    [text, few_bytes(random)].concat()
}

/// About as many lines as a byte can number: all, every second or the last alone altered.
fn lines(random: &mut Random) -> Vec<u8> {
    let count = random.between(254, 258);
    let altered = random.pick(&[b" \n" as &[u8], b"\r\n", b"A \n", b"  \r\r\n"]);
    let every = random.pick(&[1, 1, 2, count]);
    let mut text = Vec::new();
    for line in 1..=count {
        match (count - line) % every == 0 {
            true => text.extend(altered),
            false => text.extend(b"A\n"),
        }
    }
    if random.percent(50) {
        text.pop();
    }
    text
}

/// Around the longest book: rich in runs, with spaces alone that stand alone, clean, lines of
/// a book, or spaces in few lines.
fn long(random: &mut Random, book: &[u8]) -> Vec<u8> {
    let length = BOOK_LIMIT - 1 + random.index(3);
    let unit = match random.below(5) {
        0 => (0..997).map(|_| random.pick(b"  \t\r\r\nA0")).collect(),
        1 => b"A \tB\n\t 12 \n7".repeat(1 + random.index(9)),
        2 => b"A\t1\n\r7".to_vec(),
        3 => [
            vec![b' '; length / random.between(2, 7) as usize],
            vec![b'\n'],
        ]
        .concat(),
        _ => [&mangled(random, book, Manner::Both) as &[u8], b"\r\n"].concat(),
    };
    unit.into_iter().cycle().take(length).collect()
}

#[cfg(test)]
mod tests {
    use super::*;
    use std::collections::HashSet;

    const BOOK: &[u8] = b"CRM\t1\nD\t9\n";

    #[test]
    fn a_text_comes_from_its_seed_and_number() {
        let texts = |seed| -> Vec<Vec<u8>> {
            let texts = (0..200).map(|number| mailed(seed, number, BOOK));
            texts.map(|mailed| mailed.bytes).collect()
        };
        assert_eq!(texts(5), texts(5));
        assert_ne!(texts(5), texts(6));
    }

    #[test]
    fn every_kind_occurs() {
        let kinds = (0..5000).map(|number| mailed(1, number, BOOK).kind);
        let kinds = HashSet::<Kind>::from_iter(kinds);
        assert_eq!(kinds.len(), KINDS.len() + 1);
    }

    #[test]
    fn every_small_length_occurs() {
        let lengths = (0..5000).map(|number| few_bytes(&mut Random::new(1, number)).len());
        assert_eq!(HashSet::<usize>::from_iter(lengths).len(), 61);
    }

    #[test]
    fn books_that_do_not_come_back_are_sent_all_the_same() {
        let sent = |book: &[u8]| {
            let sent = (0..400).map(|number| mailed(1, number, book));
            let sent = sent.filter(|mailed| mailed.kind == Kind::Mangled);
            Vec::from_iter(sent.map(|mailed| mailed.manner.is_some()))
        };
        assert!(sent(BOOK).iter().all(|manner| *manner) && !sent(BOOK).is_empty());
        assert!(sent(b"CRM\t\t1\n").iter().all(|manner| !manner));
    }
}
