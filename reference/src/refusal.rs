//! The refusals by number (01: The four operations, The book; 02: L5, L6, L9, L14).

/// Amount over the limit.
pub const AMOUNT: u64 = 1;
/// Unknown edition, class, kind or goods type; of a netting set, unknown table,
/// class, side or goods type.
pub const CODE: u64 = 2;
/// Step or sovereign's step above 6, or not 0 where 0 is due.
pub const STEP: u64 = 3;
/// Currency outside 1 to 999.
pub const CURRENCY: u64 = 4;
/// Interval, term or issue life outside its range; of a position, a wrong security
/// number too.
pub const DAYS: u64 = 5;
/// The list is full, or a netting set has more than 32 positions.
pub const FULL: u64 = 6;
/// Residual term above the original term.
pub const RESIDUAL: u64 = 7;
/// A condition neither 0 nor 1.
pub const CONDITION: u64 = 8;
/// First line of the book wrong.
pub const HEADER: u64 = 9;
/// Book longer than 65,536 bytes.
pub const LENGTH: u64 = 10;
/// Line that cannot be read.
pub const LINE: u64 = 11;
/// The second line exists and opens no deal.
pub const SECOND_LINE: u64 = 12;
/// Results list too short.
pub const RESULTS: u64 = 13;
/// Entries for one security of a netting set that disagree in type, step, life or
/// currency.
pub const SECURITY: u64 = 15;
/// Goods received in a netting set that are not eligible as collateral.
pub const NOT_ELIGIBLE: u64 = 16;
/// Amounts of all positions of a netting set together over the amount limit.
pub const TOTAL: u64 = 17;
/// Buffer too short for the repaired book.
pub const REPAIRED: u64 = 20;
/// Record that opening and adding would not have built.
pub const RECORD: u64 = 40;
/// List too short for the numbers of the altered lines.
pub const ALTERED: u64 = 41;
