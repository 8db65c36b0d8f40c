//! The layout of numbers, and whether the linked library has the one that this
//! package is written for.

use std::sync::Once;

use crate::layout;

/// The layout of numbers that this package is written for: its lengths, its
/// named fields and its words. The header says what each layout is, and when the
/// number rises.
pub const LAYOUT: u64 = 4;

/// Stops the program at its first call where the library has another layout: it
/// would take one number for another, which no answer of its own could tell. The
/// library is linked for good, so that one comparison holds for every later call
/// and those only look whether it was made.
pub(crate) fn compare_once() {
    static COMPARED: Once = Once::new();
    COMPARED.call_once(|| compare(layout()));
}

fn compare(found: u64) {
    assert!(
        found == LAYOUT,
        "libhadlephoga.a has layout {found}, this package is written for {LAYOUT}"
    );
}

#[cfg(test)]
mod tests {
    use super::*;

    #[test]
    fn the_library_has_the_layout() {
        compare_once();
        compare(layout());
        assert_eq!(layout(), LAYOUT);
    }

    #[test]
    #[should_panic = "libhadlephoga.a has layout 3, this package is written for 4"]
    fn an_earlier_layout() {
        compare(3);
    }

    #[test]
    #[should_panic = "has layout 5"]
    fn a_later_layout() {
        compare(5);
    }
}
