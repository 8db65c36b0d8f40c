//! The grounds for leaving an item out, by number
//! (01: Grounds for leaving an item out; 02: L1).

/// Not lawful.
pub const NOT_LAWFUL: u8 = 21;
/// Collateral related to the counterparty.
pub const RELATED: u8 = 22;
/// Already in the rating used.
pub const IN_RATING: u8 = 23;
/// Collateral not eligible by type and step.
pub const NOT_ELIGIBLE: u8 = 24;
/// Maturity mismatch with an original term under a year.
pub const SHORT_ORIGINAL: u8 = 25;
/// Maturity mismatch with a residual term of three months or less.
pub const SHORT_RESIDUAL: u8 = 26;
/// Guarantee or swap not direct.
pub const NOT_DIRECT: u8 = 27;
/// Guarantee or swap of an unrated other entity.
pub const UNRATED_PROVIDER: u8 = 28;
/// Provider's risk weight not below the counterparty's.
pub const WEIGHT_NOT_LOWER: u8 = 29;
