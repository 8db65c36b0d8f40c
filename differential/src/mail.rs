//! Mailed texts that a run met, and the cases of them that it should meet.

use std::collections::BTreeMap;

use hadlephoga::BOOK_LIMIT;

use crate::alike;
use crate::altered_lines::AlteredLines;
use crate::cells::{cell, Cell, Cells};
use crate::heading::EDITIONS;
use crate::mail_laws::Due;
use crate::mail_limits::WHOLES;
use crate::mail_runs::Runs;
use crate::mailed::{Kind, Mailed};
use crate::mangled::{Manner, MANNERS};

/// How long a lent list is beside what is due.
#[derive(Clone, Copy, Debug, PartialEq, Eq)]
pub enum Room {
    Empty = 1,
    Short,
    Exact,
    Longer,
    MuchLonger,
}

pub const ROOMS: [Room; 5] = [
    Room::Empty,
    Room::Short,
    Room::Exact,
    Room::Longer,
    Room::MuchLonger,
];

impl Room {
    /// The length for so many that are due; much longer by this.
    pub fn length(self, due: usize, much: usize) -> usize {
        match self {
            Room::Empty => 0,
            Room::Short => due.saturating_sub(1),
            Room::Exact => due,
            Room::Longer => due + 1,
            Room::MuchLonger => due + much,
        }
    }

    fn is_enough(self) -> bool {
        self as u64 >= Room::Exact as u64
    }
}

/// The refusal that is due where at least two bytes and two lines are.
fn refusal(too_long: bool, bytes: Room, lines: Room) -> u64 {
    match (too_long, bytes.is_enough(), lines.is_enough()) {
        (true, ..) => 10,
        (false, false, _) => 20,
        (false, true, false) => 41,
        (false, true, true) => 0,
    }
}

pub struct Mail {
    pub texts: BTreeMap<&'static str, u64>,
    pub repaired: u64,
    /// Mangled books that came back.
    pub back: u64,
    pub bytes: u64,
    /// Refusal, and the length of each list beside what is due.
    lent: Cells,
    nothing_due: Cells,
    sizes: Cells,
    wholes: Cells,
    runs: Runs,
    lines: AlteredLines,
    alike: Cells,
    mangled: Cells,
}

/// One byte more than a book may have.
const TOO_LONG: usize = BOOK_LIMIT + 1;

/// Texts of so few bytes, where a run or a line is missed the easiest; and around the limit,
/// and twice it.
const SIZES: [u64; 7] = [0, 1, 2, 65_535, 65_536, 65_537, 131_072];

fn sizes() -> impl Iterator<Item = Cell> {
    let sizes = SIZES.into_iter();
    let sizes = sizes.flat_map(|size| [0, 1].map(|shorter| cell(&[size, shorter])));
    // Nothing gets shorter than one byte; and spaces alone are twice the limit.
    sizes.filter(|cell| !matches!(cell[..2], [0 | 1, 1] | [131_072, 0]))
}

fn lent() -> Vec<Cell> {
    let mut cells = Vec::new();
    for too_long in [false, true] {
        for bytes in ROOMS {
            cells.extend(ROOMS.map(|lines| {
                let refusal = refusal(too_long, bytes, lines);
                cell(&[refusal, bytes as u64, lines as u64])
            }));
        }
    }
    cells
}

impl Mail {
    pub fn new() -> Self {
        let nothing = [0, 1].into_iter();
        let nothing = nothing.flat_map(|some| ROOMS.map(|room| (some, room)));
        let nothing = nothing.filter(|(_, room)| room.is_enough());
        let places = 0..WHOLES.len() as u64;
        let limits = [0, BOOK_LIMIT as u64, TOO_LONG as u64];
        let editions = EDITIONS.into_iter();
        Mail {
            texts: BTreeMap::new(),
            repaired: 0,
            back: 0,
            bytes: 0,
            lent: Cells::new(
                "mail, lent: refusal, room of bytes, room of numbers",
                lent(),
            ),
            nothing_due: Cells::new(
                "mail, no line altered: empty or not, room of numbers",
                nothing.map(|(some, room)| cell(&[some, room as u64])),
            ),
            sizes: Cells::new("mail, sizes: bytes, whether fewer are left", sizes()),
            wholes: Cells::new(
                "mail, one unit throughout: which, bytes",
                places.flat_map(|place| limits.map(|limit| cell(&[place, limit]))),
            ),
            runs: Runs::new(),
            lines: AlteredLines::new(),
            alike: alike::cells("mail, bytes like those sought: byte, place"),
            mangled: Cells::new(
                "mail, books answered as before: header, what was mangled",
                editions.flat_map(|of| MANNERS.map(|manner| cell(&[of, manner as u64]))),
            ),
        }
    }

    pub fn families(&self) -> Vec<&Cells> {
        let mut families = vec![&self.lent, &self.nothing_due, &self.sizes, &self.wholes];
        families.extend(self.runs.families());
        families.extend(self.lines.families());
        families.extend([&self.alike, &self.mangled]);
        families
    }

    /// A text that both sides answered alike, refused or not.
    pub fn meet_text(&mut self, mailed: &Mailed, due: Due) {
        *self.texts.entry(mailed.kind.name()).or_default() += 1;
        let length = mailed.bytes.len();
        let shorter = u64::from(due.bytes < length);
        if SIZES.contains(&(length as u64)) {
            self.sizes.meet(&[length as u64, shorter]);
        }
        if [Kind::AtLimits, Kind::Whole].contains(&mailed.kind) {
            self.meet_whole(&mailed.bytes);
        }
    }

    /// Three bytes tell them all apart.
    fn meet_whole(&mut self, text: &[u8]) {
        let length = match text.len() {
            3..=60 => 0,
            length @ (BOOK_LIMIT | TOO_LONG) => length as u64,
            _ => return,
        };
        let place = WHOLES
            .iter()
            .position(|whole| whole.text(text.len()) == text);
        if let Some(place) = place {
            self.wholes.meet(&[place as u64, length]);
        }
    }

    /// Lists that were lent, both sides answering alike.
    pub fn meet_lent(&mut self, due: Due, rooms: [Room; 2], refusal: u64) {
        let [bytes, lines] = rooms;
        if due.bytes > 1 && due.lines > 1 {
            (self.lent).meet(&[refusal, bytes as u64, lines as u64]);
        }
        if due.lines == 0 && refusal == 0 && bytes == Room::Exact {
            let some = u64::from(due.bytes > 0);
            // None can be short where none is due.
            let room = match lines.is_enough() {
                true => lines,
                false => Room::Exact,
            };
            self.nothing_due.meet(&[some, room as u64]);
        }
    }

    /// A text that was repaired, with the numbers of its altered lines.
    pub fn meet_repaired(&mut self, text: &[u8], altered: &[u64]) {
        self.repaired += 1;
        self.runs.meet(text);
        self.lines.meet(text, altered);
        if text.len() < 5000 {
            alike::meet(&mut self.alike, text);
        }
    }

    /// A book with accepted deals that came back and is answered as before.
    pub fn meet_back(&mut self, edition: u64, manner: Manner) {
        self.mangled.meet(&[edition, manner as u64]);
    }
}

#[cfg(test)]
mod tests {
    use super::*;

    #[test]
    fn every_case_is_listed() {
        let mail = Mail::new();
        let all = Vec::from_iter(mail.families().iter().map(|cells| cells.all()));
        assert_eq!(all, [50, 6, 11, 24, 150, 125, 32, 36, 8, 8, 64, 12]);
    }

    #[test]
    fn rooms() {
        let lengths = ROOMS.map(|room| room.length(7, 100));
        assert_eq!(lengths, [0, 6, 7, 8, 107]);
        assert_eq!(Room::Short.length(0, 100), 0);
        assert_eq!(refusal(false, Room::Exact, Room::Short), 41);
        assert_eq!(refusal(false, Room::Short, Room::Short), 20);
        assert_eq!(refusal(true, Room::Short, Room::Short), 10);
    }

    #[test]
    fn rooms_that_show_nothing() {
        let mut mail = Mail::new();
        let due = |bytes, lines| Due { bytes, lines };
        mail.meet_lent(due(9, 1), [Room::Exact, Room::Short], 41);
        assert_eq!(mail.lent.met(), 0);
        mail.meet_lent(due(9, 0), [Room::Exact, Room::Short], 0);
        mail.meet_lent(due(9, 0), [Room::Exact, Room::Exact], 0);
        mail.meet_lent(due(9, 0), [Room::Short, Room::Exact], 20);
        assert_eq!(mail.nothing_due.met(), 1);
        mail.meet_lent(due(2, 2), [Room::Empty, Room::Empty], 20);
        assert_eq!(mail.lent.met(), 1);
        assert!(mail
            .families()
            .iter()
            .all(|cells| cells.unlisted().count() == 0));
    }
}
