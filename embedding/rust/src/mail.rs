//! Books that came by mail.

use crate::{repair_book_numbers, Refusal, RepairReply, BOOK_LIMIT};

/// A repaired book.
#[derive(Clone, Debug, PartialEq, Eq)]
pub struct Repaired {
    pub book: Vec<u8>,
    /// The numbers of the altered lines, from 1 and rising.
    pub altered: Vec<u64>,
}

/// [`repair_book_numbers`] with room enough for every book; refused with 10.
pub fn repair_book(book: &[u8]) -> Result<Repaired, Refusal> {
    // A longer book is refused whatever the room is, so that none is made for it.
    let limited = &book[..book.len().min(BOOK_LIMIT)];
    let lines = limited.split_inclusive(|byte| *byte == b'\n').count();
    let mut repaired = vec![0; limited.len()];
    let mut altered = vec![0; lines];
    match repair_book_numbers(book, &mut repaired, &mut altered) {
        RepairReply {
            refusal: 0,
            bytes,
            lines,
        } => {
            // Both were written into these lists, so that the counts are indices.
            repaired.truncate(bytes as usize);
            altered.truncate(lines as usize);
            Ok(Repaired {
                book: repaired,
                altered,
            })
        }
        RepairReply { refusal, .. } => Err(Refusal(refusal)),
    }
}
