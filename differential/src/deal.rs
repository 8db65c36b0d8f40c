//! Accepted deals, as lines of a book.

use hadlephoga::{Collateral, Record, Terms};

use crate::held::{held, LETTERS};
use crate::line::Line;
use crate::random::Random;
use crate::swapped::swap_some;
use crate::values;

/// An accepted deal with lists of random lengths.
pub fn deal(random: &mut Random, edition: u64) -> Vec<Line> {
    let (collateral, guarantees) = (values::list_length(random), values::list_length(random));
    deal_with(random, edition, collateral, guarantees)
}

/// An accepted deal but for the lengths of its lists; collateral and
/// guarantees stand in any order, and some of the guarantees are swaps.
pub fn deal_with(random: &mut Random, edition: u64, collateral: u64, guarantees: u64) -> Vec<Line> {
    let mut lines = without_swaps(random, edition, collateral, guarantees);
    // Drawn aside, so that the deals of a seed are those of before there were swaps.
    swap_some(&mut random.aside(), &mut lines);
    lines
}

/// The record of a deal of such lines, with lists that are not too long.
pub fn record(lines: &[Line]) -> Record {
    fn numbers<const LENGTH: usize>(line: &Line) -> [u64; LENGTH] {
        std::array::from_fn(|place| line.fields[place])
    }
    let collateral = lines.iter().filter(|line| line.letter == b'C');
    let collateral = collateral.map(|line| Collateral::from_numbers(&numbers(line)));
    let guarantees = lines.iter().filter(|line| LETTERS.contains(&line.letter));
    Record::new(
        Terms::from_numbers(&numbers(&lines[0])),
        &Vec::from_iter(collateral),
        &Vec::from_iter(guarantees.map(held)),
    )
}

/// The same as it was before there were swaps, for the books that are measured.
pub fn without_swaps(
    random: &mut Random,
    edition: u64,
    mut collateral: u64,
    mut guarantees: u64,
) -> Vec<Line> {
    let terms = values::terms(random, edition);
    let of = (collateral, guarantees);
    let mut lines = vec![Line::new(b'D', &terms.to_numbers())];
    while collateral + guarantees > 0 {
        if random.below(collateral + guarantees) < collateral {
            collateral -= 1;
            let item = values::collateral(random, &terms, of.0);
            lines.push(Line::new(b'C', &item.to_numbers()));
        } else {
            guarantees -= 1;
            let item = values::guarantee(random, &terms, of.1);
            lines.push(Line::new(b'G', &item.to_numbers()));
        }
    }
    lines
}

#[cfg(test)]
mod tests {
    use super::*;
    use crate::heading::header;

    #[test]
    fn every_deal_is_accepted() {
        for number in 0..2000 {
            let edition = number % 3 + 1;
            let deal = deal(&mut Random::new(7, number), edition);
            let mut book = header(edition).to_vec();
            book.extend(deal.iter().flat_map(|line| line.text(edition)));
            let mut results = [0; 4];
            assert_eq!(hadlephoga::answer_book(&book, &mut results), Ok(1));
            assert_eq!(results[1], 0, "{}", book.escape_ascii());
            let record = record(&deal);
            let held = record.collateral_count + record.guarantee_count;
            assert_eq!(held as usize, deal.len() - 1);
            let report = hadlephoga::report(&record).expect("an accepted deal");
            assert_eq!(results[2..], [report.exposure, report.weighted_amount]);
        }
    }
}
