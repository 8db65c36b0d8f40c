//! A second implementation of the relief calculator of document 01, with
//! requests L1, L2, L5, L6, L9, L11 and L14 of document 02, written from the papers
//! alone: exposure after collateral (E*), value and losses of protection or the
//! ground for leaving it out, and the risk-weighted amount, for a book of deals or
//! for one deal; E* and the risk-weighted amount of a netting set; and the repair
//! of a book that came by mail.
//!
//! No function panics or overflows, whatever the input: the numbers of a record or
//! a netting set are tested before any arithmetic is done on them, and the
//! arithmetic on tested numbers is either far inside `u64` or done in 128 bits.

#![forbid(unsafe_code)]

mod acceptance;
mod answer;
mod book;
mod edition;
mod mail;
mod maturity;
mod netting;
mod netting_acceptance;
mod netting_lines;
mod outcome;
mod printing;
mod protection;
mod record;
mod reporting;
mod scaling;
mod share;
mod tables;
mod tables_2019;
mod tables_2023;
mod weights;

pub mod ground;
pub mod refusal;

pub use acceptance::{add_collateral, add_guarantee, add_swap, open};
pub use answer::{answer_book, deals, BookReply, DealRead};
pub use mail::{repair_book, RepairReply};
pub use netting::{net_set, NettingReply, NettingSet, Position};
pub use outcome::{Outcome, Valuation};
pub use printing::{printed, printed_netting, printed_repair, printed_reports};
pub use record::{Collateral, Cover, Guarantee, Record, Swap, Terms, AMOUNT_LIMIT, LIST_LIMIT};
pub use reporting::{report, Report};
