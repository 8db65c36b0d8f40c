//! Safe calls into the proved calculator of credit-risk relief.
//!
//! A book of deals is answered by [`answer_book`], four numbers a deal; one that
//! came by mail is repaired first, by [`repair_book`]. One deal is opened by
//! [`open`], gets its items by [`add_collateral`], [`add_guarantee`] and
//! [`add_swap`], and is reported by [`report`], with what became of every item: its
//! value and where the rest of its amount went, or the ground for leaving it out. A
//! set of repo-style transactions under a master netting agreement is netted by
//! [`net_set`]. All answer every input with figures or a [`Refusal`]; nothing panics,
//! save the first call in a program that was linked with a library of another layout
//! of numbers than [`LAYOUT`].
//!
//! ```
//! let book = b"CRM\t1\nD\t900\t4\t0\t978\t3\t1\t90\t1\t0\t0\n";
//! let mut results = [0; 4];
//! assert_eq!(hadlephoga::answer_book(book, &mut results), Ok(1));
//! assert_eq!(results, [1, 0, 900, 675]);
//! ```
//!
//! An unrated bank weighs 50, but under edition 2 no less than its sovereign,
//! which weighs 150 at step 6:
//!
//! ```
//! let book = b"CRM\t2\nD\t900\t2\t0\t6\t978\t3\t1\t90\t1\t0\t0\n";
//! let mut results = [0; 4];
//! assert_eq!(hadlephoga::answer_book(book, &mut results), Ok(1));
//! assert_eq!(results, [1, 0, 900, 1350]);
//! ```
//!
//! By the tables of 2023, which edition 3 has, it weighs 150 by itself:
//!
//! ```
//! let book = b"CRM\t3\nD\t900\t2\t0\t1\t978\t3\t1\t90\t1\t0\t0\n";
//! let mut results = [0; 4];
//! assert_eq!(hadlephoga::answer_book(book, &mut results), Ok(1));
//! assert_eq!(results, [1, 0, 900, 1350]);
//! ```
//!
//! A bank's swap for which restructuring is no credit event covers 60 percent of
//! its amount, here 540 at weight 20:
//!
//! ```
//! let book = b"CRM\t1\nD\t900\t4\t0\t978\t3\t1\t90\t1\t0\t0\n\
//!     S\t900\t2\t1\t978\t90\t90\t1\t1\t1\t0\n";
//! let mut results = [0; 4];
//! assert_eq!(hadlephoga::answer_book(book, &mut results), Ok(1));
//! assert_eq!(results, [1, 0, 900, 378]);
//! ```
//!
//! The first of these books, after a mail program made its tabs spaces and added
//! carriage returns:
//!
//! ```
//! let mailed = b"CRM 1\r\nD   900 4 0 978 3 1 90  1 0 0\r\n";
//! let repaired = hadlephoga::repair_book(mailed).unwrap();
//! assert_eq!(repaired.book, b"CRM\t1\nD\t900\t4\t0\t978\t3\t1\t90\t1\t0\t0\n");
//! assert_eq!(repaired.altered, [1, 2]);
//! ```
//!
//! Cash of 1,000,000 in another currency, for half the days of the deal, and where
//! it went:
//!
//! ```
//! use hadlephoga::{report, Collateral, Outcome, Record, Terms, Valuation};
//!
//! let terms = Terms::from_numbers(&[2_000_000, 3, 0, 0, 978, 3, 1, 1800, 1, 0, 0, 1]);
//! let cash = Collateral::from_numbers(&[1_000_000, 1, 0, 0, 840, 900, 900, 1, 1, 1, 0]);
//! let report = report(&Record::new(terms, &[cash], &[])).unwrap();
//! let valuation = Valuation {
//!     value: 420_092,
//!     haircut_loss: 113_138,
//!     maturity_loss: 466_770,
//!     cut_loss: 0,
//! };
//! assert_eq!(report.collateral[0], Outcome::Valued(valuation));
//! assert_eq!(valuation.value + valuation.losses(), cash.amount);
//! ```
//!
//! A netting set with a bank that weighs 50: a sovereign's bond was lent and less of it
//! came back, with cash besides. Lent less received is 100,000; of the bond 600,000 net,
//! with a haircut of 2 percent, adds 12,000:
//!
//! ```
//! use hadlephoga::{net_set, Netted, NettingSet, Position, SetTerms, LENT, RECEIVED};
//!
//! let bond = |side, amount| Position::from_numbers(&[side, amount, 101, 2, 1, 720, 978]);
//! let cash = |side, amount| Position::from_numbers(&[side, amount, 0, 1, 0, 0, 978]);
//! let set = NettingSet {
//!     terms: SetTerms::from_numbers(&[2, 2, 2, 0, 978, 6]),
//!     positions: vec![bond(LENT, 1_000_000), bond(RECEIVED, 400_000), cash(RECEIVED, 500_000)],
//! };
//! let due = Netted { exposure: 112_000, rwa: 56_000 };
//! assert_eq!(net_set(&set), Ok(due));
//! ```

mod calls;
mod layout;
mod mail;
mod netting;
mod numbers;
mod record;
mod refusal;
mod report;

pub use calls::{
    add_collateral, add_collateral_numbers, add_guarantee, add_guarantee_numbers, add_swap,
    add_swap_numbers, answer_book, answer_book_numbers, layout, net_set_numbers, open,
    open_numbers, repair_book_numbers, report, report_numbers, BookReply, NettingReply,
    RepairReply, ANSWER_LENGTH, BOOK_LIMIT,
};
pub use layout::LAYOUT;
pub use mail::{repair_book, Repaired};
pub use netting::{net_set, Netted, NettingSet, Position, SetTerms, LENT, POSITIONS, RECEIVED};
pub use record::{
    Collateral, Guarantee, HeldGuarantee, Record, Swap, Terms, GUARANTEE_INSTRUMENT, ITEMS,
    RECORD_LENGTH, SWAP_WITHOUT_RESTRUCTURING, SWAP_WITH_RESTRUCTURING,
};
pub use refusal::Refusal;
pub use report::{
    Cover, Ground, Outcome, Report, Valuation, COVER_WIDTH, OUTCOME_WIDTH, REPORT_LENGTH,
};
