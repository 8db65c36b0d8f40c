//! One mailed text repaired by both implementations into lists of several lengths, every byte
//! and every number compared.

use hadlephoga::{RepairReply, BOOK_LIMIT};

use crate::compare::{Difference, Left};
use crate::heading::edition_of;
use crate::lent::{Lent, Mark, MARGIN};
use crate::line::count_deals;
use crate::mail::{Room, ROOMS};
use crate::mail_laws::{self, Due};
use crate::mailed::Mailed;
use crate::mangled::Manner;
use crate::random::Random;
use crate::sides::{Side, SIDES};
use crate::tally::Tally;

/// What a side answered, and both lists with their margins as it left them.
#[derive(Debug, PartialEq, Eq)]
struct Outcome {
    reply: RepairReply,
    bytes: Lent<u8>,
    lines: Lent<u64>,
}

impl Outcome {
    fn of(side: Side, text: &[u8], [bytes, lines]: [usize; 2]) -> Self {
        let (mut bytes, mut lines) = (Lent::new(bytes), Lent::new(lines));
        let reply = side.repair_book(text, bytes.list(), lines.list());
        Outcome {
            reply,
            bytes,
            lines,
        }
    }
}

/// A text and what is due of it; the repair itself once both have made it.
struct Trial<'a> {
    text: &'a [u8],
    due: Due,
    result: Option<Repair>,
}

/// A repaired text, and the numbers of its altered lines.
type Repair = (Vec<u8>, Vec<u64>);

/// Of longer texts one pair of lengths is tried beside the exact one.
const SHORT: usize = 2000;
/// What is much longer is longer by so much at most.
const MOST: u64 = 300;

/// Repairs a text that came by mail; the book is what it may have been.
pub fn repairs(
    random: &mut Random,
    mailed: &Mailed,
    book: &[u8],
    tally: &mut Tally,
) -> Result<(), Difference> {
    let text = &mailed.bytes;
    let mut trial = Trial {
        text,
        due: Due::of(text),
        result: None,
    };
    let exact = lent(random, &trial, [Room::Exact; 2], tally)?;
    tally.mail.meet_text(mailed, trial.due);
    if let [Some(proved), Some(reference)] = exact {
        laws(&trial, [&proved, &reference])?;
        tally.mail.meet_repaired(text, &proved.1);
        if let Some(manner) = mailed.manner {
            came_back(&trial, &proved.0, book, manner, tally)?;
        }
        trial.result = Some(proved);
    }
    for rooms in other_rooms(random, &trial) {
        lent(random, &trial, rooms, tally)?;
    }
    Ok(())
}

/// All pairs where a text is too long and next to nothing would be left of it, else some.
fn other_rooms(random: &mut Random, trial: &Trial) -> Vec<[Room; 2]> {
    let Due { bytes, lines } = trial.due;
    if trial.text.len() > BOOK_LIMIT && bytes < SHORT && lines > 1 {
        let pairs = ROOMS.map(|bytes| ROOMS.map(|lines| [bytes, lines]));
        return pairs.concat();
    }
    let count = match trial.text.len() > SHORT {
        true => 1,
        false => 3,
    };
    (0..count)
        .map(|_| [random.pick(&ROOMS), random.pick(&ROOMS)])
        .collect()
}

/// Both answers with lists of these lengths: each must be the reply that is due, with the
/// repair in front, and nothing written behind it or beside a refusal.
fn lent(
    random: &mut Random,
    trial: &Trial,
    rooms: [Room; 2],
    tally: &mut Tally,
) -> Result<[Option<Repair>; 2], Difference> {
    let much = random.between(2, MOST) as usize;
    let due = [trial.due.bytes, trial.due.lines];
    let lengths = [0, 1].map(|of| rooms[of].length(due[of], much));
    let outcomes = SIDES.map(|side| Outcome::of(side, trial.text, lengths));
    let reply = due_reply(trial, lengths);
    let right = match (&trial.result, reply.refusal) {
        // The two are all there is to hold them to.
        (None, 0) => outcomes[0] == outcomes[1] && outcomes[0].reply == reply,
        (result, _) => {
            let expected = expected(reply, lengths, result.as_ref());
            outcomes.iter().all(|outcome| *outcome == expected)
        }
    };
    if !right {
        let [bytes, lines] = lengths;
        let about = format!("repairing, {bytes} bytes and {lines} numbers lent; due: {reply:?}");
        return Err(difference(trial, &about, &outcomes));
    }
    tally.counts.numbers += 3 + lengths[1] as u64;
    tally.mail.bytes += lengths[0] as u64;
    tally.mail.meet_lent(trial.due, rooms, reply.refusal);
    Ok(outcomes.map(|mut outcome| {
        let accepted = outcome.reply.refusal == 0;
        accepted.then(|| (outcome.bytes.list().to_vec(), outcome.lines.list().to_vec()))
    }))
}

fn due_reply(trial: &Trial, [bytes, lines]: [usize; 2]) -> RepairReply {
    let refusal = match trial.due {
        _ if trial.text.len() > BOOK_LIMIT => 10,
        due if bytes < due.bytes => 20,
        due if lines < due.lines => 41,
        _ => 0,
    };
    let unless_refused = |length| match refusal {
        0 => length as u64,
        _ => 0,
    };
    RepairReply {
        refusal,
        bytes: unless_refused(trial.due.bytes),
        lines: unless_refused(trial.due.lines),
    }
}

/// Lists of these lengths untouched, but for the repair in front of them.
fn expected(reply: RepairReply, lengths: [usize; 2], result: Option<&Repair>) -> Outcome {
    let (mut bytes, mut lines) = (Lent::new(lengths[0]), Lent::new(lengths[1]));
    if let Some((text, altered)) = result.filter(|_| reply.refusal == 0) {
        bytes.list()[..text.len()].copy_from_slice(text);
        lines.list()[..altered.len()].copy_from_slice(altered);
    }
    Outcome {
        reply,
        bytes,
        lines,
    }
}

/// Each side by itself: what holds of a repaired text, and repairing it again, which alters
/// nothing.
fn laws(trial: &Trial, repairs: [&Repair; 2]) -> Result<(), Difference> {
    for (side, (repaired, altered)) in SIDES.into_iter().zip(repairs) {
        let again = Outcome::of(side, repaired, [repaired.len(), 0]);
        let reply = RepairReply {
            refusal: 0,
            bytes: repaired.len() as u64,
            lines: 0,
        };
        let unaltered = (repaired.clone(), Vec::new());
        let stays = again == expected(reply, [repaired.len(), 0], Some(&unaltered));
        let wrong = mail_laws::wrong(trial.text, repaired, altered);
        let wrong = wrong.or((!stays).then_some("repaired again, it is altered"));
        if let Some(words) = wrong {
            let outcomes = SIDES.map(|side| Outcome::of(side, repaired, [repaired.len(), 0]));
            let about = format!("a repair, though both may agree: {words}; again");
            return Err(difference(trial, &about, &outcomes));
        }
    }
    Ok(())
}

/// A book that came back is the book that was sent, and the library answers it so.
fn came_back(
    trial: &Trial,
    repaired: &[u8],
    book: &[u8],
    manner: Manner,
    tally: &mut Tally,
) -> Result<(), Difference> {
    tally.mail.back += 1;
    let answer = |text: &[u8]| {
        let mut results = Lent::new(count_deals(book) * 4);
        let reply = Side::Proved.answer_book(text, results.list());
        (reply, results)
    };
    let sent = answer(book);
    if repaired != book || answer(repaired) != sent {
        let lengths = [trial.due.bytes, trial.due.lines];
        let outcomes = SIDES.map(|side| Outcome::of(side, trial.text, lengths));
        let about = "a mangled book that does not come back, or is not answered as before";
        return Err(difference(trial, about, &outcomes));
    }
    // What was mangled must show before it is repaired.
    let shows = manner == Manner::Nothing || answer(trial.text) != sent;
    let accepted = sent.1.numbers[MARGIN..]
        .chunks_exact(4)
        .any(|of| of[1] == 0);
    if let Some(edition) = edition_of(book).filter(|_| shows && accepted && sent.0.refusal == 0) {
        tally.mail.meet_back(edition, manner);
    }
    Ok(())
}

fn difference(trial: &Trial, about: &str, outcomes: &[Outcome; 2]) -> Difference {
    let [proved, reference] = outcomes;
    let text = &trial.text[..trial.text.len().min(400)];
    let whole = trial.text.len();
    Difference {
        about: about.to_string(),
        deal: format!("text of {whole} bytes: \"{}\"", text.escape_ascii()),
        proved: shown(proved, reference),
        reference: shown(reference, proved),
        left: Left::new("mailed text", trial.text.to_vec()),
    }
}

/// A reply, and both lists from a little before the first place that differs.
fn shown(of: &Outcome, other: &Outcome) -> String {
    let bytes = from_difference(&of.bytes, &other.bytes);
    let lines = from_difference(&of.lines, &other.lines);
    format!("{:?}, \"{}\", {lines:?}", of.reply, bytes.escape_ascii())
}

fn from_difference<'a, Part: Mark + PartialEq>(
    of: &'a Lent<Part>,
    other: &Lent<Part>,
) -> &'a [Part] {
    let mut places = of.numbers.iter().zip(&other.numbers);
    let place = places.position(|(one, other)| one != other);
    let from = place.unwrap_or(MARGIN).saturating_sub(4);
    &of.numbers[from..of.numbers.len().min(from + 30)]
}

#[cfg(test)]
mod tests {
    use super::*;
    use crate::mailed::Kind;

    fn trial(text: &[u8]) -> Trial<'_> {
        Trial {
            text,
            due: Due::of(text),
            result: None,
        }
    }

    #[test]
    fn replies() {
        let refusal = |text: &[u8], lengths| due_reply(&trial(text), lengths).refusal;
        let text = b"A  B\r\n \n";
        let lengths = [[6, 2], [7, 9], [6, 1], [5, 2], [5, 1], [0, 0]];
        let refusals = lengths.map(|lengths| refusal(text, lengths));
        assert_eq!(refusals, [0, 0, 41, 20, 20, 20]);
        assert_eq!(refusal(&[b' '; 65_536], [1, 1]), 0);
        assert_eq!(refusal(&[b' '; 65_537], [0, 0]), 10);
        let reply = due_reply(&trial(text), [6, 2]);
        assert_eq!([reply.bytes, reply.lines], [6, 2]);
        let reply = due_reply(&trial(text), [6, 1]);
        assert_eq!([reply.bytes, reply.lines], [0, 0]);
    }

    #[test]
    fn what_is_expected_of_lists() {
        let result = (b"\tA".to_vec(), vec![1]);
        let reply = due_reply(&trial(b" A"), [3, 2]);
        let mut outcome = expected(reply, [3, 2], Some(&result));
        assert_eq!(outcome.bytes.list()[..2], *b"\tA");
        assert_eq!(outcome.bytes.list()[2], Lent::new(3).list()[2]);
        assert_eq!(outcome.lines.list(), [1, Lent::new(2).list()[1]]);
        let refused = due_reply(&trial(b" A"), [1, 2]);
        assert_eq!(expected(refused, [1, 2], Some(&result)).bytes, Lent::new(1));
    }

    #[test]
    fn every_text_of_six_bytes() {
        let (random, tally) = (&mut Random::new(67, 1), &mut Tally::new());
        let mut texts = vec![Vec::new()];
        for length in 0..=6 {
            assert_eq!(texts.len(), 5usize.pow(length));
            for bytes in &texts {
                let mailed = Mailed {
                    kind: Kind::Bytes,
                    bytes: bytes.clone(),
                    manner: None,
                };
                let same = repairs(random, &mailed, b"", tally).is_ok();
                assert!(same, "{}", bytes.escape_ascii());
            }
            let longer = |text: &Vec<u8>| b" \t\r\nA".map(|byte| [text as &[u8], &[byte]].concat());
            texts = texts.iter().flat_map(longer).collect();
        }
        assert_eq!(tally.mail.repaired, 19_531);
    }

    #[test]
    fn two_that_agree_need_not_be_right() {
        let text = b"A B\n\r\n";
        let right = (b"A\tB\n\n".to_vec(), vec![1, 2]);
        assert!(laws(&trial(text), [&right, &right]).is_ok());
        let wrong = (b"A\tB\n\n".to_vec(), vec![1]);
        for repairs in [[&wrong, &wrong], [&wrong, &right], [&right, &wrong]] {
            assert!(laws(&trial(text), repairs).is_err());
        }
    }
}
