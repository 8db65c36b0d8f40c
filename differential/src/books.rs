//! Random books of every kind, each made from a seed and its number alone.

use hadlephoga::{BOOK_LIMIT, ITEMS};

use crate::damage::damage;
use crate::deal::{deal, deal_with};
use crate::debt::make_debt;
use crate::first_lines::no_header;
use crate::heading::{header, with_other_lines, HEADER_LENGTH};
use crate::held::LETTERS;
use crate::line::Line;
use crate::losing::lose;
use crate::malformed::{malform, NEAR};
use crate::outside::put_outside;
use crate::random::Random;
use crate::revalued::revalue;
use crate::reweighed::reweigh;
use crate::swapped::tell_swaps;
use crate::unrated::unrate;
use crate::values;

#[derive(Clone, Copy, Debug, PartialEq, Eq, Hash)]
pub enum Kind {
    /// Every line is accepted.
    Valid,
    /// Every line is accepted, and most parties are unrated.
    Unrated,
    /// Every line is accepted, and most parties are such as the 2023 weights change.
    Reweighed,
    /// Every line is accepted, and most goods are debt at the edge of a band.
    Debt,
    /// Every line is accepted, and the periods are those of daily deals or next to them.
    Revalued,
    /// Every line is accepted, and the amounts, currencies and terms of swaps count.
    Swapped,
    /// Every line is accepted, and items lose in every way or are left out.
    Losing,
    /// Fields just outside their ranges.
    Outside,
    /// Lines that cannot be read.
    Malformed,
    /// Bytes and lines moved, changed or lost.
    Damaged,
    /// Lists of fifteen to eighteen items.
    FullLists,
    /// Close to 65,536 bytes, on either side.
    Large,
    /// As many deals as a book can hold, each of a few bytes.
    ManyDeals,
    WrongHeader,
    /// Lines of one header under another.
    OtherLines,
    WrongSecondLine,
    /// Bytes without any order, or without much.
    Bytes,
}

const KINDS: &[(u64, Kind)] = &[
    (1100, Kind::Valid),
    (1800, Kind::Unrated),
    (1300, Kind::Reweighed),
    (3400, Kind::Debt),
    (1200, Kind::Revalued),
    (500, Kind::Swapped),
    (2000, Kind::Losing),
    (2600, Kind::Outside),
    (1100, Kind::Malformed),
    (900, Kind::Damaged),
    (600, Kind::FullLists),
    (80, Kind::Large),
    // Thousands of deals each, so few books.
    (3, Kind::ManyDeals),
    (450, Kind::WrongHeader),
    (100, Kind::OtherLines),
    (400, Kind::WrongSecondLine),
    (300, Kind::Bytes),
];

impl Kind {
    pub fn name(self) -> &'static str {
        match self {
            Kind::Valid => "valid",
            Kind::Unrated => "valid, most parties unrated",
            Kind::Reweighed => "valid, most parties of changed weights",
            Kind::Debt => "valid, most goods debt at band edges",
            Kind::Revalued => "valid, periods of daily deals or near",
            Kind::Swapped => "valid, cuts of swaps",
            Kind::Losing => "valid, losses of items",
            Kind::Outside => "fields outside their ranges",
            Kind::Malformed => "malformed lines",
            Kind::Damaged => "damaged bytes",
            Kind::FullLists => "full lists",
            Kind::Large => "close to 65,536 bytes",
            Kind::ManyDeals => "thousands of deals",
            Kind::WrongHeader => "wrong header",
            Kind::OtherLines => "lines of another header",
            Kind::WrongSecondLine => "wrong second line",
            Kind::Bytes => "random bytes",
        }
    }
}

pub struct Book {
    pub kind: Kind,
    pub bytes: Vec<u8>,
}

/// The book of this number under this seed. The first six of every seed stand
/// at the limits of size, so that a short run meets them too.
pub fn book(seed: u64, number: u64) -> Book {
    let random = &mut Random::new(seed, number);
    let edition = values::edition(random);
    let (kind, bytes) = match number {
        0..=2 => {
            let mut book = overlong(random, edition).0;
            book.truncate(BOOK_LIMIT - 1 + number as usize);
            (Kind::Large, book)
        }
        3..=5 => {
            let deals = 2044 + number as usize;
            (Kind::ManyDeals, short_deals(random, edition, deals))
        }
        _ => {
            let kind = random.weighted(KINDS);
            (kind, of_kind(kind, random, edition))
        }
    };
    Book { kind, bytes }
}

fn of_kind(kind: Kind, random: &mut Random, edition: u64) -> Vec<u8> {
    match kind {
        Kind::Valid => valid(random, edition),
        Kind::Unrated => valid_with(random, edition, unrate),
        Kind::Reweighed => valid_with(random, edition, reweigh),
        Kind::Debt => valid_with(random, edition, make_debt),
        Kind::Revalued => valid_with(random, edition, revalue),
        Kind::Swapped => valid_with(random, edition, tell_swaps),
        Kind::Losing => losing(random, edition),
        Kind::Outside => outside(random, edition),
        Kind::Malformed => with_malformed_lines(random, edition),
        Kind::Damaged => damaged(random, edition),
        Kind::FullLists => full_lists(random, edition),
        Kind::Large => large(random, edition),
        Kind::ManyDeals => many_deals(random, edition),
        Kind::WrongHeader => wrong_header(random, edition),
        Kind::OtherLines => other_lines(random, edition),
        Kind::WrongSecondLine => wrong_second_line(random, edition),
        Kind::Bytes => bytes(random, edition),
    }
}

fn some_deals(random: &mut Random, edition: u64) -> Vec<Vec<Line>> {
    let deals = random.weighted(&[(1, 0), (10, 1), (20, 3), (40, 8), (20, 16), (2, 60)]);
    (0..deals).map(|_| deal(random, edition)).collect()
}

fn texts(edition: u64, deal: &[Line]) -> Vec<Vec<u8>> {
    deal.iter().map(|line| line.text(edition)).collect()
}

fn written<'a>(edition: u64, lines: impl IntoIterator<Item = &'a Line>) -> Vec<u8> {
    let mut book = header(edition).to_vec();
    book.extend(lines.into_iter().flat_map(|line| line.text(edition)));
    book
}

fn valid(random: &mut Random, edition: u64) -> Vec<u8> {
    written(edition, some_deals(random, edition).iter().flatten())
}

/// Accepted deals, each changed so that it still is.
fn valid_with(random: &mut Random, edition: u64, change: fn(&mut Random, &mut [Line])) -> Vec<u8> {
    let mut deals = some_deals(random, edition);
    for deal in &mut deals {
        change(random, deal);
    }
    written(edition, deals.iter().flatten())
}

/// A few deals, most of them with many items, so that each place has its cases.
fn losing(random: &mut Random, edition: u64) -> Vec<u8> {
    let lengths = &[(1, 0), (3, 2), (3, 5), (3, 9), (2, 16)];
    let deals = (0..random.between(1, 4)).map(|_| {
        let [collateral, guarantees] = [(); 2].map(|()| random.weighted(lengths));
        let mut deal = deal_with(random, edition, collateral, guarantees);
        lose(random, &mut deal);
        deal
    });
    let deals = Vec::from_iter(deals);
    written(edition, deals.iter().flatten())
}

/// Which lines of a deal to spoil: none in three of ten deals, at most two.
fn lines_to_spoil(random: &mut Random, deal: &[Line]) -> Vec<usize> {
    match random.below(20) {
        0..=5 => vec![],
        // The line D often, for it has more to be refused.
        6..=10 => vec![0],
        11..=17 => vec![random.index(deal.len())],
        _ => vec![random.index(deal.len()), random.index(deal.len())],
    }
}

fn outside(random: &mut Random, edition: u64) -> Vec<u8> {
    let mut deals = some_deals(random, edition);
    for deal in &mut deals {
        for place in lines_to_spoil(random, deal) {
            put_outside(random, &mut deal[place]);
        }
    }
    written(edition, deals.iter().flatten())
}

fn with_malformed_lines(random: &mut Random, edition: u64) -> Vec<u8> {
    let mut book = header(edition).to_vec();
    for mut deal in some_deals(random, edition) {
        let spoilt = lines_to_spoil(random, &deal);
        // 11 comes before the line's own refusals.
        for place in &spoilt {
            if random.percent(20) {
                put_outside(random, &mut deal[*place]);
            }
        }
        for (place, line) in deal.iter().enumerate() {
            let mut text = line.text(edition);
            if spoilt.contains(&place) {
                match random.percent(10) {
                    true => text = line.text(with_other_lines(edition)),
                    false => malform(random, &mut text),
                }
            }
            book.extend(text);
        }
    }
    book
}

fn damaged(random: &mut Random, edition: u64) -> Vec<u8> {
    let mut book = valid(random, edition);
    for _ in 0..random.between(1, 5) {
        damage(random, &mut book);
    }
    book
}

fn full_lists(random: &mut Random, edition: u64) -> Vec<u8> {
    let mut book = header(edition).to_vec();
    for _ in 0..random.between(1, 5) {
        let lengths = &[(1, 0), (1, 3), (1, 15), (3, 16), (3, 17), (1, 18)];
        let (collateral, guarantees) = (random.weighted(lengths), random.weighted(lengths));
        let mut deal = deal_with(random, edition, collateral, guarantees);
        // A seventeenth item is 6 whatever is wrong with its numbers, and 11
        // where it cannot be read.
        let spoilt = match seventeenth(&deal) {
            Some(place) if random.percent(50) => place,
            _ => deal.len() - 1,
        };
        if random.percent(20) {
            put_outside(random, &mut deal[spoilt]);
        }
        let mut texts = texts(edition, &deal);
        if random.percent(20) {
            malform(random, &mut texts[spoilt]);
        }
        book.extend(texts.concat());
    }
    book
}

/// The place of the first guarantee or swap that is one too many.
fn seventeenth(deal: &[Line]) -> Option<usize> {
    let items = deal.iter().enumerate();
    let mut items = items.filter(|(_, line)| LETTERS.contains(&line.letter));
    items.nth(ITEMS).map(|(place, _)| place)
}

/// A valid book of more bytes than are allowed, and the length of the whole
/// deals that fit.
fn overlong(random: &mut Random, edition: u64) -> (Vec<u8>, usize) {
    let mut book = header(edition).to_vec();
    let mut whole = book.len();
    while book.len() <= BOOK_LIMIT + 8 {
        if book.len() <= BOOK_LIMIT {
            whole = book.len();
        }
        book.extend(texts(edition, &deal(random, edition)).concat());
    }
    (book, whole)
}

fn large(random: &mut Random, edition: u64) -> Vec<u8> {
    let (mut book, whole) = overlong(random, edition);
    match random.below(4) {
        0 => book.truncate(whole),
        // Cut, mostly inside a line.
        1 | 2 => book.truncate(BOOK_LIMIT - 6 + random.index(14)),
        // Filled up by a last line.
        _ => {
            book.truncate(whole);
            book.resize((BOOK_LIMIT - 3 + random.index(6)).max(whole), b'7');
            book.push(b'\n');
        }
    }
    book
}

/// About 2,048 deals, which the program can print, or as many as fit.
fn many_deals(random: &mut Random, edition: u64) -> Vec<u8> {
    let deals = match random.percent(90) {
        true => random.between(2040, 2060) as usize,
        false => usize::MAX,
    };
    short_deals(random, edition, deals)
}

/// So many deals of a few bytes, or as many as fit and perhaps one more.
fn short_deals(random: &mut Random, edition: u64, deals: usize) -> Vec<u8> {
    let openings = [b"D\t\n" as &[u8], b"D\t1\n", b"D\t\n\n", b"D\t\nC\t\n"];
    let opening = random.pick(&openings);
    let most = (BOOK_LIMIT - HEADER_LENGTH) / opening.len() + random.index(2);
    [header(edition), &opening.repeat(deals.min(most))].concat()
}

/// Now and then it is one all the same.
fn wrong_header(random: &mut Random, edition: u64) -> Vec<u8> {
    let mut first = header(edition).to_vec();
    match random.below(20) {
        0 => first.clear(),
        1 => first.truncate(random.index(HEADER_LENGTH)),
        2 => {
            first.truncate(random.index(HEADER_LENGTH));
            return first;
        }
        3 => first.insert(5, random.pick(b"\r \t0123")),
        4 => {
            first = random
                .pick(&[b"crm\t1\n", b"CRM 1\n", b"CRM 3\n", b"CRN\t1\n"])
                .to_vec()
        }
        5 => first.insert(0, random.pick(b"\n \xef\x00C")),
        6 => first.insert(random.index(6), random.pick(NEAR)),
        7 => drop(first.remove(random.index(6))),
        8 | 9 => {
            let at = random.index(6);
            first[at] ^= 1 << random.below(8);
        }
        _ => first = no_header(random).to_vec(),
    }
    first.extend_from_slice(&valid(random, edition)[HEADER_LENGTH..]);
    first
}

/// One header, and all deals or the later ones as another has them.
fn other_lines(random: &mut Random, edition: u64) -> Vec<u8> {
    let mut book = header(edition).to_vec();
    for (place, deal) in some_deals(random, edition).iter().enumerate() {
        let of = match place == 0 && random.percent(50) {
            true => edition,
            false => with_other_lines(edition),
        };
        book.extend(texts(of, deal).concat());
    }
    book
}

fn wrong_second_line(random: &mut Random, edition: u64) -> Vec<u8> {
    let header = header(edition);
    let deals = valid(random, edition);
    let item = texts(edition, &deal_with(random, edition, 1, 1));
    let line = match random.below(10) {
        0 => b"\n".to_vec(),
        1 => header.to_vec(),
        2 | 3 => item[1].clone(),
        4 => item[2].clone(),
        5 => random
            .pick(&[
                b"D\n" as &[u8],
                b"D",
                b"D 1\n",
                b"d\t1\n",
                b"\tD\t1\n",
                b" ",
            ])
            .to_vec(),
        6 => [vec![random.pick(b" \nDdM")], item[0].clone()].concat(),
        7 => vec![random.pick(NEAR)],
        8 => vec![random.pick(NEAR), b'\n'],
        _ => {
            return [
                header,
                random.pick(&[b"D" as &[u8], b"C", b"\n", b"D\r", b"\x00"]),
            ]
            .concat()
        }
    };
    [header, &line, &deals[HEADER_LENGTH..]].concat()
}

fn bytes(random: &mut Random, edition: u64) -> Vec<u8> {
    let length = match random.below(4) {
        0 => random.index(8),
        1 | 2 => random.index(300),
        _ => random.index(5000),
    };
    let mut book = match random.below(4) {
        0 => Vec::new(),
        1 => header(edition).to_vec(),
        _ => [header(edition), b"D\t"].concat(),
    };
    let any = random.percent(40);
    book.extend((0..length).map(|_| match any {
        true => random.number() as u8,
        false => random.pick(b"\t\t\t\n\nDCGS0123456789"),
    }));
    book
}

#[cfg(test)]
mod tests {
    use super::*;
    use crate::heading::{edition_of, EDITIONS};
    use crate::line::count_deals;
    use std::collections::HashSet;

    #[test]
    fn a_book_comes_from_its_seed_and_number() {
        let books = |seed| -> Vec<Vec<u8>> { (0..200).map(|n| book(seed, n).bytes).collect() };
        assert_eq!(books(5), books(5));
        assert_ne!(books(5), books(6));
    }

    #[test]
    fn every_kind_occurs() {
        let kinds: HashSet<Kind> = (0..20_000)
            .map(|number| Random::new(1, number).weighted(KINDS))
            .collect();
        assert_eq!(kinds.len(), KINDS.len());
    }

    #[test]
    fn every_kind_occurs_under_each_header() {
        for (_, kind) in KINDS.iter().filter(|(_, kind)| *kind != Kind::WrongHeader) {
            for edition in EDITIONS {
                let books = (0..20).map(|n| of_kind(*kind, &mut Random::new(37, n), edition));
                let headed = books.filter(|book| edition_of(book) == Some(edition));
                assert!(headed.count() > 5, "{kind:?}");
            }
        }
    }

    /// The refusals of a book's deals.
    fn refusals(book: &[u8]) -> Vec<u64> {
        let mut results = vec![0; count_deals(book) * 4];
        assert!(hadlephoga::answer_book(book, &mut results).is_ok());
        results.chunks_exact(4).map(|answer| answer[1]).collect()
    }

    #[test]
    fn lines_of_another_header_are_refused() {
        for number in 0..100 {
            let random = &mut Random::new(41, number);
            let edition = number % 3 + 1;
            for kind in [
                Kind::Valid,
                Kind::Unrated,
                Kind::Reweighed,
                Kind::Debt,
                Kind::Revalued,
                Kind::Swapped,
            ] {
                let refusals = refusals(&of_kind(kind, random, edition));
                assert!(refusals.iter().all(|refusal| *refusal == 0));
            }
            let refusals = refusals(&other_lines(random, edition));
            assert!(refusals.iter().skip(1).all(|refusal| *refusal == 11));
        }
    }
}
