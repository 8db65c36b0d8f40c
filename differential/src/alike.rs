//! Bytes that a mistake could take for a space, a return, a tab or a line feed, or for the
//! end of a text, where it would show.

use crate::cells::{cell, Cells};

/// None; next to the four; what C calls white space; the four with the highest bit; ends of
/// text.
pub const ALIKE: [u8; 16] = [
    0x00, 0x08, 0x0B, 0x0C, 0x0E, 0x1A, 0x1F, 0x21, 0x2D, 0x7F, 0x85, 0x89, 0x8A, 0x8D, 0xA0, 0xFF,
];

/// Where it stands.
const BETWEEN_SPACES: u64 = 1;
const BETWEEN_RETURN_AND_FEED: u64 = 2;
const BEFORE_FEED: u64 = 3;
const FIRST_OF_LINE: u64 = 4;

pub fn cells(title: &'static str) -> Cells {
    let cells = ALIKE.into_iter().flat_map(|byte| {
        let places = BETWEEN_SPACES..=FIRST_OF_LINE;
        places.map(move |place| cell(&[byte.into(), place]))
    });
    Cells::new(title, cells)
}

pub fn meet(cells: &mut Cells, text: &[u8]) {
    for (place, byte) in text.iter().enumerate() {
        if !ALIKE.contains(byte) {
            continue;
        }
        let before = place.checked_sub(1).map(|before| text[before]);
        let stands = match (before, text.get(place + 1)) {
            (Some(b' '), Some(b' ')) => BETWEEN_SPACES,
            (Some(b'\r'), Some(b'\n')) => BETWEEN_RETURN_AND_FEED,
            (_, Some(b'\n')) => BEFORE_FEED,
            (None | Some(b'\n'), _) => FIRST_OF_LINE,
            _ => continue,
        };
        cells.meet(&[u64::from(*byte), stands]);
    }
}

#[cfg(test)]
mod tests {
    use super::*;

    #[test]
    fn places() {
        let met = |text: &[u8]| {
            let mut met = cells("");
            meet(&mut met, text);
            assert_eq!(met.unlisted().count(), 0);
            let met = met.counts().filter(|(_, count)| *count > 0);
            Vec::from_iter(met.map(|(cell, _)| [cell[0], cell[1]]))
        };
        assert_eq!(met(b" \xff "), [[255, BETWEEN_SPACES]]);
        assert_eq!(met(b"\r\x0b\n"), [[11, BETWEEN_RETURN_AND_FEED]]);
        assert_eq!(met(b" \0\n"), [[0, BEFORE_FEED]]);
        assert_eq!(met(b"\n\xa0\r"), [[160, FIRST_OF_LINE]]);
        assert_eq!(met(b"\xa0"), [[160, FIRST_OF_LINE]]);
        assert_eq!(met(b"A\xa0A \tA\n"), [[0; 2]; 0]);
        assert_eq!(cells("").all(), 64);
    }
}
