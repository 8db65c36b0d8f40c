//! Refusals by number.

use std::fmt;

/// The number of a refusal: 9, 10, 12, 13 of a book; 10, 20, 41 of one that came by
/// mail; 1 to 8 and 11 of a line in a book, of opening and of adding; 40 of a record; 1
/// to 6, 11 and 15 to 17 of a netting set.
#[derive(Clone, Copy, Debug, PartialEq, Eq)]
pub struct Refusal(pub u64);

impl fmt::Display for Refusal {
    fn fmt(&self, out: &mut fmt::Formatter) -> fmt::Result {
        let words = match self.0 {
            1 => "amount over the limit",
            2 => "unknown edition, table, class, kind, side or type",
            3 => "step or sovereign's step above 6, or not 0 where 0 is due",
            4 => "currency outside 1 to 999",
            5 => "interval, term, issue life or security number outside its range",
            6 => "list is full, or more than 32 positions",
            7 => "residual term above the original one",
            8 => "condition neither 0 nor 1",
            9 => "first line is no header",
            10 => "book longer than 65,536 bytes",
            11 => "malformed line or list of numbers",
            12 => "second line opens no deal",
            13 => "list too short",
            15 => "entries for one security disagree",
            16 => "received goods not eligible as collateral",
            17 => "amounts of all positions over the limit",
            20 => "buffer too short for the repaired book",
            40 => "record not accepted",
            41 => "list too short for the altered lines",
            _ => "unknown refusal",
        };
        write!(out, "refusal {}: {words}", self.0)
    }
}

impl std::error::Error for Refusal {}
