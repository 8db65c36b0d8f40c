//! A tally as a readable table.

use std::collections::BTreeMap;

use crate::answers::OTHER;
use crate::cells::Cells;
use crate::held::WITH_CONDITION;
use crate::mail::Mail;
use crate::netting::Netting;
use crate::tally::{Counts, Tally};

pub fn print(tally: &Tally) {
    counted(&tally.counts);
    mailed(&tally.mail);
    netted(&tally.netting);
    println!();
    let answers = &tally.answers;
    let numbered = [
        &answers.books,
        &answers.records,
        &answers.opened,
        &answers.added_collateral,
        &answers.added_guarantees,
        &answers.added_swaps,
        &answers.collateral_grounds,
        &answers.guarantee_grounds,
        &tally.netting.refusals,
    ];
    for cells in numbered {
        by_number(cells);
    }
    grounds_of_swaps(&answers.swap_grounds);
    lines_by_number(&answers.lines);
    println!();
    cases(&tally.families());
}

/// Of a run of netting sets alone.
pub fn print_sets(netting: &Netting) {
    netted(netting);
    println!();
    by_number(&netting.refusals);
    println!();
    cases(&netting.families());
}

/// Of a run of other orders alone.
pub fn print_orders(tally: &Tally) {
    row("accepted deals, on each side", tally.counts.accepted_deals);
    println!();
    cases(&tally.entries.families());
}

fn by_number(cells: &Cells) {
    println!("{}", cells.title);
    for (cell, count) in cells.counts() {
        row(&format!("  {}", cell[0]), count);
    }
}

fn row(name: &str, count: u64) {
    println!("{name:<44}{:>16}", grouped(count));
}

fn counted(counts: &Counts) {
    row("books", counts.books);
    for (kind, count) in &counts.books_by_kind {
        row(&format!("  {kind}"), *count);
    }
    for (edition, count) in &counts.answered_books {
        row(&format!("books answered, headed {edition}"), *count);
    }
    row("deals", counts.deals);
    row("  accepted", counts.accepted_deals);
    for (letter, count) in &counts.lines {
        row(&format!("lines {}", char::from(*letter)), *count);
    }
    row("records besides", counts.records);
    row("  accepted", counts.accepted_records);
    row("collateral valued", counts.valued_collateral);
    row("guarantees valued", counts.valued_guarantees);
    row("swaps valued", counts.valued_swaps);
    row("numbers compared", counts.numbers);
}

fn mailed(mail: &Mail) {
    row("mailed texts", mail.texts.values().sum());
    for (kind, count) in &mail.texts {
        row(&format!("  {kind}"), *count);
    }
    row("  repaired", mail.repaired);
    row("  books that came back", mail.back);
    row("bytes of repairs compared", mail.bytes);
}

fn netted(netting: &Netting) {
    row("netting sets", netting.sets.values().sum());
    for (kind, count) in &netting.sets {
        row(&format!("  {kind}"), *count);
    }
    row("  accepted before anything is wrong", netting.accepted);
    row("sets compared, bettered and wrong ones too", netting.netted);
}

/// A row for each family, and one for all of them.
fn cases(families: &[&Cells]) {
    let row = |title: &str, met: usize, all: usize, least: u64| {
        let met = format!("{met} / {all}");
        println!("{title:<70}{met:>12}{:>12}", grouped(least));
    };
    println!("{:<70}{:>12}{:>12}", "cases", "met / all", "least often");
    for cells in families {
        row(cells.title, cells.met(), cells.all(), cells.least());
    }
    row(
        "all of them",
        families.iter().map(|cells| cells.met()).sum(),
        families.iter().map(|cells| cells.all()).sum(),
        families
            .iter()
            .map(|cells| cells.least())
            .min()
            .unwrap_or(0),
    );
}

/// A row for each ground, a column for each entry of the condition.
fn grounds_of_swaps(cells: &Cells) {
    let mut grounds: BTreeMap<u64, [u64; 2]> = BTreeMap::new();
    for (cell, count) in cells.counts() {
        let by_entry = grounds.entry(cell[0]).or_default();
        by_entry[usize::from(cell[1] == WITH_CONDITION)] += count;
    }
    println!("grounds of swaps without and with the condition");
    for (ground, [without, with]) in grounds {
        println!(
            "  {ground:<42}{:>16}{:>16}",
            grouped(without),
            grouped(with)
        );
    }
}

/// A row for each refusal, a column for each letter.
fn lines_by_number(cells: &Cells) {
    println!("{}", cells.title);
    let letters = ["D", "C", "G", "S", "other"].map(|letter| format!("{letter:>12}"));
    println!("{:>8}{}", "", letters.concat());
    for number in (1..=8).chain([11]) {
        print!("{number:>8}");
        for letter in [b'D', b'C', b'G', b'S', OTHER as u8] {
            let wanted = [u64::from(letter), number];
            let found = cells.counts().find(|(cell, _)| cell[..2] == wanted);
            let count = found.map_or(String::from("-"), |(_, count)| grouped(count));
            print!("{count:>12}");
        }
        println!();
    }
}

/// With a comma between thousands.
pub fn grouped(number: u64) -> String {
    let digits = number.to_string();
    let mut text = String::new();
    for (place, digit) in digits.chars().enumerate() {
        if place > 0 && (digits.len() - place) % 3 == 0 {
            text.push(',');
        }
        text.push(digit);
    }
    text
}

#[cfg(test)]
mod tests {
    #[test]
    fn thousands() {
        assert_eq!(super::grouped(0), "0");
        assert_eq!(super::grouped(999), "999");
        assert_eq!(super::grouped(1000), "1,000");
        assert_eq!(super::grouped(1234567), "1,234,567");
    }
}
