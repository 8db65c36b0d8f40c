//! Guarantees and swaps as a record holds them, and as the lines that send them.

use hadlephoga::{HeldGuarantee, Swap};
pub use hadlephoga::{
    GUARANTEE_INSTRUMENT as GUARANTEE, SWAP_WITHOUT_RESTRUCTURING as WITHOUT_CONDITION,
    SWAP_WITH_RESTRUCTURING as WITH_CONDITION,
};

use crate::line::Line;

pub const INSTRUMENTS: [u64; 3] = [GUARANTEE, WITHOUT_CONDITION, WITH_CONDITION];
pub const SWAPS: [u64; 2] = [WITHOUT_CONDITION, WITH_CONDITION];

/// Place of the restructuring condition in a swap.
pub const RESTRUCTURING: usize = Swap::LENGTH - 1;

/// Letters of the lines that send an item of the list.
pub const LETTERS: [u8; 2] = *b"GS";

/// The line that sends the item. An unknown instrument is a swap's whose condition
/// is wrong.
pub fn line(item: &HeldGuarantee) -> Line {
    let mut fields = item.to_numbers();
    match item.instrument {
        GUARANTEE => Line::new(b'G', &fields[..RESTRUCTURING]),
        instrument => {
            fields[RESTRUCTURING] = instrument - WITHOUT_CONDITION;
            Line::new(b'S', &fields)
        }
    }
}

/// What a record holds of a line G or S, right or wrong.
pub fn held(line: &Line) -> HeldGuarantee {
    let sent = |place| line.fields.get(place).copied().unwrap_or(0);
    let mut item = HeldGuarantee::from_numbers(&std::array::from_fn(sent));
    item.instrument = match line.letter {
        b'S' => item.instrument.saturating_add(WITHOUT_CONDITION),
        _ => GUARANTEE,
    };
    item
}

#[cfg(test)]
mod tests {
    use super::*;

    #[test]
    fn items_and_their_lines() {
        for instrument in [0, 1, 2, 3, 257, u64::MAX] {
            let numbers = [9, 2, 0, 6, 978, 90, 90, 1, 1, 0, instrument];
            let item = HeldGuarantee::from_numbers(&numbers);
            let sent = line(&item);
            assert_eq!(sent.letter == b'G', instrument == 0);
            assert_eq!(sent.fields.len(), 10 + usize::from(instrument != 0));
            assert_eq!(held(&sent), item);
        }
    }
}
