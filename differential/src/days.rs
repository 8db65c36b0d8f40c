//! Days of life and cover at the edges of their range, in every field that
//! holds them.

use crate::cells::{cell, Cells};
use crate::line::Line;
use crate::outside::fields_of_days;
use crate::random::Random;
use crate::sides::reference_refusal;
use crate::values::{has_step, DAYS_LIMIT, LONG_EDGES};

/// The refusal of an interval, term or issue life outside its range.
const OUTSIDE: u64 = 5;

/// By line, field, days and refusal: each edge accepted, and the first day above
/// the limit refused.
pub fn cells(title: &'static str) -> Cells {
    let fields = (b"DCGS".iter())
        .flat_map(|letter| fields_of_days(*letter).map(|place| [(*letter).into(), place as u64]));
    let edges = LONG_EDGES.iter().map(|days| [*days, 0]);
    let edges = edges.chain([[DAYS_LIMIT + 1, OUTSIDE]]);
    Cells::new(
        title,
        fields.flat_map(|[letter, place]| {
            let edges = edges.clone();
            edges.map(move |[days, refusal]| cell(&[letter, place, days, refusal]))
        }),
    )
}

/// Counts the days at an edge in a line's fields, or in terms or an item, that
/// were answered so.
pub fn meet(cells: &mut Cells, letter: u8, fields: &[u64], refusal: u64) {
    // Other refusals say nothing of days, and some that fields are missing.
    if refusal != 0 && refusal != OUTSIDE {
        return;
    }
    for place in fields_of_days(letter) {
        let days = fields[place];
        let met = match refusal {
            0 => LONG_EDGES.contains(&days),
            _ => days == DAYS_LIMIT + 1 && is_cause(letter, fields, place),
        };
        if met {
            cells.meet(&[letter.into(), place as u64, days, refusal]);
        }
    }
}

/// Whether the refusal goes away with this field at the limit.
fn is_cause(letter: u8, fields: &[u64], place: usize) -> bool {
    let mut fields = fields.to_vec();
    fields[place] = DAYS_LIMIT;
    reference_refusal(letter, &fields) != OUTSIDE
}

/// Puts a field of a line at an edge, or a day above the limit.
pub fn put_at_edge(random: &mut Random, line: &mut Line) {
    let days = match random.percent(25) {
        true => DAYS_LIMIT + 1,
        false => random.pick(LONG_EDGES),
    };
    put(random, line, days);
}

/// Puts days into one of the fields that hold them. Nothing else is refused of a
/// line that was accepted: where another field must follow, it does.
pub fn put(random: &mut Random, line: &mut Line, days: u64) {
    let places = Vec::from_iter(fields_of_days(line.letter));
    let place = random.pick(&places);
    let fields = &mut line.fields;
    fields[place] = days;
    match (line.letter, place) {
        // Goods that have a life.
        (b'D', 10) | (b'C', 3) if !has_step(fields[place - 2]) => fields[place - 2] = 2,
        (b'D', _) | (b'C', 3) => (),
        // A residual term, not above the original one behind it.
        (b'C' | b'G' | b'S', 5) => fields[place + 1] = fields[place + 1].max(days.min(DAYS_LIMIT)),
        _ => fields[place - 1] = fields[place - 1].min(days),
    }
}

#[cfg(test)]
mod tests {
    use super::*;
    use crate::deal::deal_with;

    #[test]
    fn nine_fields_hold_days() {
        let places = |letter| Vec::from_iter(fields_of_days(letter));
        assert_eq!(places(b'D'), [7, 10]);
        assert_eq!(places(b'C'), [3, 5, 6]);
        assert_eq!(places(b'G'), [5, 6]);
        assert_eq!(places(b'S'), [5, 6]);
        assert_eq!(cells("").all(), 9 * (LONG_EDGES.len() + 1));
    }

    #[test]
    fn edges_are_accepted_and_the_day_above_is_not() {
        let mut met = cells("");
        for number in 0..2000 {
            let random = &mut Random::new(11, number);
            for mut line in deal_with(random, 1, 1, 1) {
                put_at_edge(random, &mut line);
                let above = line.fields.contains(&(DAYS_LIMIT + 1));
                let refusal = reference_refusal(line.letter, &line.fields);
                assert_eq!(refusal, u64::from(above) * OUTSIDE, "{line:?}");
                meet(&mut met, line.letter, &line.fields, refusal);
            }
        }
        assert_eq!(met.met(), met.all());
        assert_eq!(met.unlisted().count(), 0);
    }

    #[test]
    fn only_the_cause_of_a_refusal_is_met() {
        let mut met = cells("");
        let mut terms = [500, 3, 0, 0, 978, 3, 1, 90, 2, 1, DAYS_LIMIT + 1, 1];
        terms[7] = DAYS_LIMIT + 1;
        meet(&mut met, b'D', &terms, OUTSIDE);
        meet(&mut met, b'D', &[], 11);
        assert_eq!(met.met(), 0);
        terms[7] = DAYS_LIMIT;
        meet(&mut met, b'D', &terms, OUTSIDE);
        assert_eq!(met.met(), 1);
    }
}
