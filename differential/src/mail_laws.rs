//! What holds of every repaired text by itself, whatever the other implementation says.

use crate::line::lines;

/// How long a repaired text is, and how many of its lines are altered.
#[derive(Clone, Copy, Debug, PartialEq, Eq)]
pub struct Due {
    pub bytes: usize,
    pub lines: usize,
}

impl Due {
    /// Counted from the text's end, where a run of returns shows what it ends at.
    pub fn of(text: &[u8]) -> Self {
        let mut due = Due { bytes: 0, lines: 0 };
        let (mut behind, mut altered, mut before_feed) = (0, false, false);
        for byte in text.iter().rev() {
            if *byte == b'\n' {
                due.lines += usize::from(altered);
                altered = false;
            }
            let dropped = before_feed && *byte == b'\r';
            let joined = *byte == b' ' && behind == b' ';
            altered |= dropped || *byte == b' ';
            due.bytes += usize::from(!dropped && !joined);
            before_feed = *byte == b'\n' || dropped;
            behind = *byte;
        }
        due.lines += usize::from(altered);
        due
    }
}

/// What is wrong with a text so repaired, with the numbers of the lines so altered.
pub fn wrong(text: &[u8], repaired: &[u8], altered: &[u64]) -> Option<&'static str> {
    let feeds = |text: &[u8]| text.iter().filter(|byte| **byte == b'\n').count();
    if feeds(text) != feeds(repaired) {
        return Some("not as many line feeds");
    }
    if is_open(text) != is_open(repaired) {
        return Some("a last line without a line feed comes or goes");
    }
    if altered.windows(2).any(|pair| pair[0] >= pair[1]) {
        return Some("the numbers do not rise");
    }
    let mut listed = altered.iter().copied().peekable();
    for (number, (before, after)) in (1..).zip(lines(text).zip(lines(repaired))) {
        let is_listed = listed.next_if_eq(&number).is_some();
        if is_listed != (before != after) {
            return Some("a line is listed that stayed, or is not though it changed");
        }
        if after.contains(&b' ') || after.ends_with(b"\r\n") {
            return Some("a space, or a return before a line feed, is left");
        }
    }
    let over = listed.next().is_some();
    over.then_some("a line is listed that there is not")
}

fn is_open(text: &[u8]) -> bool {
    !text.is_empty() && !text.ends_with(b"\n")
}

#[cfg(test)]
mod tests {
    use super::*;

    #[test]
    fn lengths() {
        for (text, bytes, lines) in [
            (b"" as &[u8], 0, 0),
            (b"A\tB\n\r", 5, 0),
            (b"   ", 1, 1),
            (b" A  \n\nB \n", 8, 2),
            (b"\r\r\n\r\n\rA\n", 5, 2),
            (b" \r \r\n", 4, 1),
            (b"\r\r", 2, 0),
        ] {
            assert_eq!(Due::of(text), Due { bytes, lines }, "{text:?}");
        }
    }

    #[test]
    fn laws() {
        let text = b"A B\nC\nD\r\n  ";
        let repaired = b"A\tB\nC\nD\n\t";
        assert_eq!(wrong(text, repaired, &[1, 3, 4]), None);
        for numbers in [
            &[1u64, 3] as &[u64],
            &[3, 4],
            &[1, 2, 3, 4],
            &[1, 3, 4, 5],
            &[0, 1, 3, 4],
            &[1, 1, 3, 4],
            &[4, 3, 1],
        ] {
            assert!(wrong(text, repaired, numbers).is_some(), "{numbers:?}");
        }
        for other in [
            b"A\tB\nC\nD\n  " as &[u8],
            b"A\tB\nC\nD\r\n\t",
            b"A\tB\nC\nD\t",
            b"A\tB\nC\nD\n",
            b"A\tB\nX\nD\n\t",
        ] {
            assert!(wrong(text, other, &[1, 3, 4]).is_some(), "{other:?}");
        }
    }
}
