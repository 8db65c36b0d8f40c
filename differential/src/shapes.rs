//! The books that are measured. Each is made from a fixed seed, the same deals
//! under each header that is measured.

use std::path::Path;

use hadlephoga::BOOK_LIMIT;

use crate::deal::without_swaps;
use crate::heading::{header, CURRENCY, INTERVAL, KIND};
use crate::line::Line;
use crate::random::Random;
use crate::values;

/// A book and how much is in it.
pub struct Measured {
    pub name: String,
    pub edition: u64,
    pub book: Vec<u8>,
    pub deals: usize,
    /// Lines C, G and S.
    pub items: usize,
}

/// One book for each header, the first of them first.
pub type Books = Vec<Measured>;

/// At most so many deals, and no more than fit under each of these headers: so
/// books under header 1 or 2 alone are those that were measured before there was
/// another.
fn filled(
    name: &str,
    editions: &[u64],
    most: usize,
    mut next: impl FnMut(&mut Random) -> Vec<Line>,
) -> Books {
    let random = &mut Random::new(2019, 22);
    let mut books: Books = editions.iter().map(|of| empty(name, *of)).collect();
    while books.iter().all(|book| book.deals < most) {
        let lines = next(random);
        let text = |book: &Measured| -> Vec<u8> {
            let texts = lines.iter().flat_map(|line| line.text(book.edition));
            texts.collect()
        };
        let fits = |book: &Measured| book.book.len() + text(book).len() <= BOOK_LIMIT;
        if !books.iter().all(fits) {
            break;
        }
        for book in &mut books {
            book.book.extend(text(book));
            book.deals += 1;
            book.items += lines.len() - 1;
        }
    }
    books
}

fn empty(name: &str, edition: u64) -> Measured {
    Measured {
        name: name.to_string(),
        edition,
        book: header(edition).to_vec(),
        deals: 0,
        items: 0,
    }
}

/// A deal for any header: what it sends of it is the line's concern.
fn with_items(items: u64) -> impl FnMut(&mut Random) -> Vec<Line> {
    move |random| without_swaps(random, 1, items, items)
}

/// Kind and interval of deals in turn.
type Revalued = &'static [[u64; 2]];

/// Books by how often their deals are revalued. The deals are those of `4+4` but
/// for kind and interval, and for every second item's currency, which is another
/// than the deal's.
///
/// - `daily`: kind 3, interval 1, so that the holding period is 20 throughout;
/// - `daily-kinds`: kinds 1, 2, 3 in turn, interval 1, so that it is 5, 10, 20;
/// - `weekly`: kind 3, interval 5, so that it is 24 throughout;
/// - `intervals`: kinds 1, 2, 3 and intervals 1, 5, 1, 21, 1, 250 in turn, so that
///   it is 5, 14, 20, 25, 10, 269: another in each deal, every second deal daily.
///
/// That of guarantees is interval + 9: 10; 10; 14; 10, 14, 10, 30, 10, 259.
const REVALUED: [(&str, Revalued); 4] = [
    ("daily", &[[3, 1]]),
    ("daily-kinds", &[[1, 1], [2, 1], [3, 1]]),
    ("weekly", &[[3, 5]]),
    (
        "intervals",
        &[[1, 1], [2, 5], [3, 1], [1, 21], [2, 1], [3, 250]],
    ),
];

fn revalued(in_turn: Revalued) -> impl FnMut(&mut Random) -> Vec<Line> {
    let mut in_turn = in_turn.iter().cycle();
    move |random| {
        let mut lines = without_swaps(random, 1, 4, 4);
        if let Some([kind, interval]) = in_turn.next() {
            lines[0].fields[KIND] = *kind;
            lines[0].fields[INTERVAL] = *interval;
        }
        let another = another_currency(lines[0].fields[CURRENCY]);
        for line in lines.iter_mut().skip(1).step_by(2) {
            line.fields[CURRENCY] = another;
        }
        lines
    }
}

fn another_currency(currency: u64) -> u64 {
    match currency {
        978 => 840,
        _ => 978,
    }
}

/// The deals of `4+4`, but for the letter S of every guarantee and its entry behind it:
/// no and yes in turn.
fn swaps(random: &mut Random) -> Vec<Line> {
    let mut lines = without_swaps(random, 1, 4, 4);
    let guarantees = lines.iter_mut().filter(|line| line.letter == b'G');
    for (line, entry) in guarantees.zip([0, 1].into_iter().cycle()) {
        line.letter = b'S';
        line.fields.push(entry);
    }
    lines
}

/// Full books, as many whole deals as fit: of six shapes, then by how often their
/// deals are revalued, then with swaps.
pub fn full(editions: &[u64]) -> Vec<Books> {
    let by_shape = by_shape(editions).into_iter();
    let by_revaluation = REVALUED
        .map(|(name, in_turn)| filled(name, editions, usize::MAX, revalued(in_turn)))
        .into_iter();
    let with_swaps = filled("swaps", editions, usize::MAX, swaps);
    by_shape.chain(by_revaluation).chain([with_swaps]).collect()
}

fn by_shape(editions: &[u64]) -> Vec<Books> {
    let with = |name, items| filled(name, editions, usize::MAX, with_items(items));
    vec![
        with("deals-alone", 0),
        with("1+1", 1),
        with("4+4", 4),
        with("16+16", 16),
        filled("mixed", editions, usize::MAX, |random| {
            let [collateral, guarantees] = [(); 2].map(|()| values::list_length(random));
            without_swaps(random, 1, collateral, guarantees)
        }),
        filled("refused-at-first-line", editions, usize::MAX, |random| {
            let mut lines = without_swaps(random, 1, 4, 4);
            lines[0].fields[2] = 7; // No step: refusal 3.
            lines
        }),
    ]
}

/// A book of one item of collateral and one guarantee a deal, for each count of deals.
pub fn by_deals(editions: &[u64]) -> Vec<Books> {
    let of = |most: usize| filled("", editions, most, with_items(1));
    [1, 10, 100, usize::MAX].map(of).into()
}

/// Deals in each book of [`by_items`].
pub const DEALS_BY_ITEMS: usize = 32;

/// A book of as many deals each, for each count of items in both lists.
pub fn by_items(editions: &[u64]) -> Vec<Books> {
    let of = |items| filled("", editions, DEALS_BY_ITEMS, with_items(items));
    [0, 1, 2, 4, 8, 12, 16].map(of).into()
}

/// Writes the full books into a folder and prints their names.
pub fn write(folder: &Path, editions: &[u64]) -> Result<(), String> {
    for measured in full(editions).into_iter().flatten() {
        let name = format!("{}-headed-{}", measured.name, measured.edition);
        let file = folder.join(format!("{name}.book"));
        std::fs::write(&file, &measured.book)
            .map_err(|error| format!("{}: {error}", file.display()))?;
        println!("{name}");
    }
    Ok(())
}

#[cfg(test)]
mod tests {
    use super::*;
    use crate::compare;
    use crate::heading::EDITIONS;
    use crate::line::{count_deals, lines};
    use crate::periods;
    use crate::tally::Tally;

    fn all(editions: &[u64]) -> impl Iterator<Item = Books> {
        let books = full(editions).into_iter().chain(by_deals(editions));
        books.chain(by_items(editions))
    }

    #[test]
    fn books_hold_what_they_say() {
        for editions in [&EDITIONS as &[u64], &[1], &[2], &[3]] {
            for books in full(editions) {
                let longest = books.iter().map(|measured| measured.book.len()).max();
                let room = BOOK_LIMIT - longest.expect("a book for each header");
                assert!(room < 2000, "{}: {room}", books[0].name);
            }
            for measured in all(editions).flatten() {
                assert_eq!(count_deals(&measured.book), measured.deals);
                assert!(measured.book.starts_with(header(measured.edition)));
            }
            let by_items = by_items(editions);
            let mut by_items = by_items.iter().flatten();
            assert!(by_items.all(|book| book.deals == DEALS_BY_ITEMS));
        }
    }

    /// The same deals, but for the sovereign's steps, under each header; those under
    /// 3 are those under 2, line by line.
    #[test]
    fn each_header_has_the_same_deals() {
        for books in all(&EDITIONS) {
            let [first, second, third] = &books[..] else {
                panic!("a book for each header");
            };
            assert_eq!((first.deals, first.items), (second.deals, second.items));
            let with = lines(&second.book).skip(1);
            for (line, with) in lines(&first.book).skip(1).zip(with) {
                let read = Line::read(with, 2).expect("a sound line");
                assert_eq!(read.text(1), line);
            }
            assert_eq!((third.deals, third.items), (second.deals, second.items));
            assert!(lines(&third.book).skip(1).eq(lines(&second.book).skip(1)));
        }
    }

    /// What each book by revaluation says of its periods: those of deals and of
    /// guarantees, in turn.
    const PERIODS: [(&str, &[u64], &[u64]); 4] = [
        ("daily", &[20], &[10]),
        ("daily-kinds", &[5, 10, 20], &[10]),
        ("weekly", &[24], &[14]),
        (
            "intervals",
            &[5, 14, 20, 25, 10, 269],
            &[10, 14, 10, 30, 10, 259],
        ),
    ];

    /// The lines of each deal.
    fn deals(measured: &Measured) -> Vec<Vec<Line>> {
        let mut deals = Vec::new();
        for text in lines(&measured.book).skip(1) {
            let line = Line::read(text, measured.edition).expect("a sound line");
            match line.letter {
                b'D' => deals.push(vec![line]),
                _ => deals.last_mut().expect("a deal").push(line),
            }
        }
        deals
    }

    #[test]
    fn books_by_revaluation_have_the_periods_they_say() {
        let books = Vec::from_iter(full(&EDITIONS).into_iter().skip(6).take(4));
        assert_eq!(books.len(), PERIODS.len());
        for (books, (name, of_deals, of_guarantees)) in books.iter().zip(PERIODS) {
            for measured in books {
                assert_eq!(measured.name, name);
                let due = of_deals.iter().cycle().zip(of_guarantees.iter().cycle());
                for (deal, due) in deals(measured).iter().zip(due) {
                    let [kind, interval] = [KIND, INTERVAL].map(|place| deal[0].fields[place]);
                    let period = periods::of_deal(kind, interval);
                    assert_eq!((&period, &periods::of_guarantees(interval)), due, "{name}");
                }
            }
        }
    }

    #[test]
    fn every_second_deal_of_intervals_is_daily_and_none_has_the_period_before() {
        let intervals = full(&[1]).swap_remove(9);
        assert_eq!(intervals[0].name, "intervals");
        let deals = deals(&intervals[0]);
        for pair in deals.windows(2) {
            let periods = [0, 1].map(|of| {
                let [kind, interval] = [KIND, INTERVAL].map(|place| pair[of][0].fields[place]);
                periods::of_deal(kind, interval)
            });
            assert_ne!(periods[0], periods[1]);
        }
        for (place, deal) in deals.iter().enumerate() {
            assert_eq!(deal[0].fields[INTERVAL] == 1, place % 2 == 0);
        }
    }

    /// What may differ from the line of `4+4`, in this place of a deal.
    fn without_what_differs(place: usize, line: &Line) -> Line {
        let mut line = line.clone();
        match place {
            0 => line.fields[KIND..=INTERVAL].fill(0),
            _ if place % 2 == 1 => line.fields[CURRENCY] = 0,
            _ => {}
        }
        line
    }

    #[test]
    fn books_by_revaluation_have_the_deals_of_four_items() {
        for edition in EDITIONS {
            let books = Vec::from_iter(full(&[edition]).into_iter().flatten());
            let four = deals(&books[2]);
            assert_eq!(books[2].name, "4+4");
            for measured in &books[6..10] {
                let same = deals(measured).into_iter().zip(&four);
                for (deal, of_four) in same {
                    let without = |deal: &[Line]| {
                        let lines = deal.iter().enumerate();
                        let lines = lines.map(|(place, line)| without_what_differs(place, line));
                        Vec::from_iter(lines.map(|line| (line.letter, line.fields)))
                    };
                    assert_eq!(without(&deal), without(of_four));
                    let currency = deal[0].fields[CURRENCY];
                    let mut changed = deal[1..].iter().step_by(2);
                    assert!(changed.all(|line| line.fields[CURRENCY] != currency));
                }
            }
        }
    }

    /// FNV-1a of each of the first six full books under this header alone.
    fn hashes(edition: u64) -> Vec<u64> {
        let hash = |bytes: &[u8]| {
            bytes.iter().fold(0xCBF2_9CE4_8422_2325, |hash: u64, byte| {
                (hash ^ u64::from(*byte)).wrapping_mul(0x0100_0000_01B3)
            })
        };
        let books = full(&[edition]).into_iter().flatten().take(6);
        books.map(|measured| hash(&measured.book)).collect()
    }

    /// As the checkout before header 2 wrote them.
    #[test]
    fn books_under_header_1_alone_are_those_of_before() {
        let before = [
            0xCA9E_3029_F376_9ECF,
            0x2193_1945_F2EC_4E7E,
            0xBB6D_01C3_8446_A9A0,
            0x58A2_2A6D_1437_474E,
            0xA23F_8D85_0057_EF22,
            0x242A_D47A_759C_FBBC,
        ];
        assert_eq!(hashes(1), before);
    }

    /// As the checkout before header 3 wrote them.
    #[test]
    fn books_under_header_2_alone_are_those_of_before() {
        let before = [
            0x123C_815D_77ED_E352,
            0xC834_2AAE_69FA_CC08,
            0x28F7_BCC3_62B2_77CA,
            0x5A08_A3A2_B899_F44F,
            0x7292_2D9A_E2ED_DDE2,
            0xEE3F_2FCF_3827_6320,
        ];
        assert_eq!(hashes(2), before);
    }

    #[test]
    fn deals_are_answered_and_reported_alike() {
        for measured in full(&EDITIONS).into_iter().flatten() {
            let random = &mut Random::new(109, 0);
            let compared = compare::book(random, &measured.book, &mut Tally::new());
            assert!(compared.is_ok(), "{}", measured.name);
        }
    }

    #[test]
    fn deals_are_refused_only_where_they_should_be() {
        for measured in full(&EDITIONS).into_iter().flatten() {
            let mut results = vec![0; measured.deals * 4];
            assert_eq!(
                hadlephoga::answer_book(&measured.book, &mut results),
                Ok(measured.deals)
            );
            let refused = measured.name == "refused-at-first-line";
            for answer in results.chunks_exact(4) {
                assert_eq!(answer[1] != 0, refused);
            }
        }
    }
}
