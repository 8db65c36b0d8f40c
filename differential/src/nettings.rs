//! Netting sets through both implementations, every reply compared: with what is wrong and
//! without.

use hadlephoga::NettingReply;

use crate::compare::{Difference, Left};
use crate::nets::Nets;
use crate::random::Random;
use crate::set::{from_numbers, OWN, WIDTH};
use crate::set_laws::laws;
use crate::sets::{sent, Sent, SETS};
use crate::sides::SIDES;
use crate::tally::Tally;
use crate::wrong::put_all;

/// Beside the sequence of the sets.
const STREAM: u64 = 0x6C61_7773;

/// The sets beside the book of this number, which come from the seed and the number alone.
pub fn nettings(seed: u64, number: u64, tally: &mut Tally) -> Result<(), Difference> {
    let random = &mut Random::new(seed ^ STREAM, number);
    for place in 0..SETS {
        let sent = sent(seed, number, place);
        tally.netting.meet_kind(sent.kind);
        one_sent(random, &sent, tally)?;
    }
    Ok(())
}

fn one_sent(random: &mut Random, sent: &Sent, tally: &mut Tally) -> Result<(), Difference> {
    let Sent { base, wrongs, .. } = sent;
    let reply = netted(base, tally)?;
    tally.netting.meet(base, reply.refusal);
    let accepted = from_numbers(base).filter(|_| reply.refusal == 0);
    if let Some(set) = &accepted {
        tally.netting.meet_accepted(set, &Nets::of(set));
        laws(random, set, reply, tally)?;
    }
    let mut alone = Vec::new();
    for wrong in wrongs {
        alone.push(refusal(&wrong.put(base), tally)?);
    }
    let all = match wrongs.len() {
        0 | 1 => alone.first().copied().unwrap_or(0),
        _ => refusal(&put_all(wrongs, base), tally)?,
    };
    if accepted.is_some() {
        tally.netting.meet_wrongs(base, wrongs, &alone, all);
    }
    Ok(())
}

fn refusal(sent: &[u64], tally: &mut Tally) -> Result<u64, Difference> {
    let reply = netted(sent, tally)?;
    tally.netting.meet(sent, reply.refusal);
    Ok(reply.refusal)
}

/// The reply that both give, which is also what is worked out here.
pub fn netted(sent: &[u64], tally: &mut Tally) -> Result<NettingReply, Difference> {
    let [proved, reference] = SIDES.map(|side| side.net_set(sent));
    if proved != reference {
        return Err(difference("netting a set", sent, proved, reference));
    }
    let set = from_numbers(sent).filter(|_| proved.refusal == 0);
    let due = set.map_or([0, 0], |set| Nets::of(&set).figures());
    if [proved.exposure, proved.rwa] != due {
        let about = format!("a reply, though both agree; due: {due:?}");
        return Err(difference(&about, sent, proved, reference));
    }
    tally.counts.numbers += 3;
    tally.netting.netted += 1;
    Ok(proved)
}

pub fn difference(
    about: &str,
    sent: &[u64],
    proved: NettingReply,
    reference: NettingReply,
) -> Difference {
    Difference {
        about: about.to_string(),
        deal: shown(sent),
        proved: format!("{proved:?}"),
        reference: format!("{reference:?}"),
        left: Left::new("netting set", line(sent)),
    }
}

/// As `reference netting` reads it.
fn line(sent: &[u64]) -> Vec<u8> {
    let numbers = Vec::from_iter(sent.iter().map(u64::to_string));
    (numbers.join("\t") + "\n").into_bytes()
}

/// The numbers of its own, and a line for each position, but for those past a few too many.
fn shown(sent: &[u64]) -> String {
    let (own, positions) = sent.split_at(sent.len().min(OWN));
    let mut text = format!("set of {} numbers: {own:?}", sent.len());
    for position in positions.chunks(WIDTH).take(40) {
        text += &format!("\n  {position:?}");
    }
    text
}

/// What each side says of the sets beside the book of this number.
pub fn show(seed: u64, number: u64) {
    for place in 0..SETS {
        let Sent { kind, base, wrongs } = sent(seed, number, place);
        eprintln!("netting set {place}: {}", kind.name());
        for numbers in [base.clone(), put_all(&wrongs, &base)]
            .iter()
            .take(1 + wrongs.len())
        {
            eprintln!("{}", shown(numbers));
            for side in SIDES {
                eprintln!("{}: {:?}", side.name(), side.net_set(numbers));
            }
        }
    }
}

#[cfg(test)]
mod tests {
    use super::*;
    use crate::sides::Side;

    #[test]
    fn lines_are_read_by_the_second_implementation() {
        let sent = [2, 3, 0, 0, 978, 1, 1, 500, 0, 1, 0, 0, 978];
        let reply = Side::Reference.net_set(&sent);
        let printed = reference::printed_netting(&line(&sent));
        let due = format!("{}\t{}\t{}\n", reply.refusal, reply.exposure, reply.rwa);
        assert_eq!(String::from_utf8_lossy(&printed), due);
    }

    #[test]
    fn some_sets_agree() {
        let mut tally = Tally::new();
        for number in 0..300 {
            if let Err(difference) = nettings(5, number, &mut tally) {
                panic!("{} {}", difference.about, difference.deal);
            }
        }
        assert!(tally.netting.netted > 5000);
        for cells in tally.netting.families() {
            assert_eq!(cells.unlisted().count(), 0, "{}", cells.title);
        }
    }
}
