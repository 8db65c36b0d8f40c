//! Deals and items as lines of a book, under each header.

use hadlephoga::{Collateral, Guarantee, Swap, Terms};

/// Where the sovereign's step stands, which lines leave out under header 1.
const SOVEREIGN_STEP: usize = 3;

fn line(letter: char, fields: &[u64]) -> String {
    let fields: String = fields.iter().map(|field| format!("\t{field}")).collect();
    format!("{letter}{fields}\n")
}

fn sent(edition: u64, fields: &[u64]) -> Vec<u64> {
    let mut fields = fields.to_vec();
    if edition == 1 {
        fields.remove(SOVEREIGN_STEP);
    }
    fields
}

/// Under the header that says the edition of the terms.
pub fn terms_line(terms: &Terms) -> String {
    let fields = &terms.to_numbers()[..Terms::LENGTH - 1];
    line('D', &sent(terms.edition, fields))
}

pub fn collateral_line(item: &Collateral) -> String {
    line('C', &item.to_numbers())
}

pub fn guarantee_line(edition: u64, item: &Guarantee) -> String {
    line('G', &sent(edition, &item.to_numbers()))
}

pub fn swap_line(edition: u64, item: &Swap) -> String {
    line('S', &sent(edition, &item.to_numbers()))
}

pub fn headed(edition: u64, lines: &[String]) -> Vec<u8> {
    format!("CRM\t{edition}\n{}", lines.concat()).into_bytes()
}
