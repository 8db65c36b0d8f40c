//! Repairing a book that came by mail (02: L14).

use crate::book::{lines, LONGEST};
use crate::refusal;

/// Reply to a repair: the refusal or 0, and what was written to each buffer.
#[derive(Clone, Copy, Debug, PartialEq, Eq)]
pub struct RepairReply {
    pub refusal: u64,
    /// Length of the repaired book.
    pub bytes: usize,
    /// Count of the lines altered.
    pub lines: usize,
}

/// Repairs a book: each run of spaces becomes one tab, and the carriage returns
/// right before a line feed are dropped. The repaired book is written from the
/// front of `repaired`, the rising numbers of the altered lines from the front of
/// `altered`, and nothing behind either. A refusal leaves both untouched.
pub fn repair_book(book: &[u8], repaired: &mut [u8], altered: &mut [u64]) -> RepairReply {
    match written(book, repaired, altered) {
        Ok([bytes, lines]) => RepairReply {
            refusal: 0,
            bytes,
            lines,
        },
        Err(refusal) => RepairReply {
            refusal,
            bytes: 0,
            lines: 0,
        },
    }
}

/// The lengths written. Both buffers are measured before either is written, for
/// 41 to leave the first one untouched.
fn written(book: &[u8], repaired: &mut [u8], altered: &mut [u64]) -> Result<[usize; 2], u64> {
    if book.len() > LONGEST {
        return Err(refusal::LENGTH);
    }
    let repair = Repair::of(book);
    let lengths = [repair.text.len(), repair.altered.len()];
    let lent_text = repaired.get_mut(..lengths[0]).ok_or(refusal::REPAIRED)?;
    let lent_list = altered.get_mut(..lengths[1]).ok_or(refusal::ALTERED)?;
    lent_text.copy_from_slice(&repair.text);
    lent_list.copy_from_slice(&repair.altered);
    Ok(lengths)
}

/// A repaired book and the numbers of the lines that differ from those sent.
#[derive(Default)]
struct Repair {
    text: Vec<u8>,
    altered: Vec<u64>,
}

impl Repair {
    fn of(book: &[u8]) -> Self {
        let mut repair = Repair::default();
        for (number, line) in (1..).zip(lines(book)) {
            let mended = mended(line);
            if mended != line {
                repair.altered.push(number);
            }
            repair.text.extend(mended);
        }
        repair
    }
}

/// A line after the repair. No run of spaces, nor of returns that ends at a line
/// feed, goes beyond its line.
fn mended(line: &[u8]) -> Vec<u8> {
    let (content, feed) = parted(line);
    let mut mended = Vec::with_capacity(line.len());
    for run in content.chunk_by(|&one, &next| (one == b' ') == (next == b' ')) {
        let is_spaces = run.starts_with(b" ");
        mended.extend_from_slice(if is_spaces { b"\t" } else { run });
    }
    mended.extend_from_slice(feed);
    mended
}

/// What stays of a line before its line feed, and the line feed. Returns at the
/// end of a line without one stay.
fn parted(line: &[u8]) -> (&[u8], &[u8]) {
    let Some(mut content) = line.strip_suffix(b"\n") else {
        return (line, b"");
    };
    while let Some(shorter) = content.strip_suffix(b"\r") {
        content = shorter;
    }
    (content, b"\n")
}

#[cfg(test)]
mod tests {
    use super::*;

    #[test]
    fn a_line_keeps_its_line_feed_and_loses_the_returns_before_it() {
        for (line, content, feed) in [
            (&b""[..], &b""[..], &b""[..]),
            (b"\n", b"", b"\n"),
            (b"A\n", b"A", b"\n"),
            (b"A\r\n", b"A", b"\n"),
            (b"\r\r\r\n", b"", b"\n"),
            (b"\rA\r\r\n", b"\rA", b"\n"),
            (b"\r \r\n", b"\r ", b"\n"),
            (b"A\r", b"A\r", b""),
            (b"A", b"A", b""),
        ] {
            assert_eq!(parted(line), (content, feed), "{line:?}");
        }
    }

    #[test]
    fn a_run_of_spaces_is_one_tab_and_other_runs_stay() {
        for (line, expected) in [
            (&b""[..], &b""[..]),
            (b" ", b"\t"),
            (b"   \n", b"\t\n"),
            (b"AA  0\r\0 \xff\n", b"AA\t0\r\0\t\xff\n"),
            (b" \t \t\t", b"\t\t\t\t\t"),
        ] {
            assert_eq!(mended(line), expected, "{line:?}");
        }
    }
}
