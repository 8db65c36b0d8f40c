//! What must hold of an accepted netting set and of those that follow from it, whatever both
//! implementations say.

use hadlephoga::NettingReply;
use reference::NettingSet;

use crate::compare::Difference;
use crate::nets::Nets;
use crate::nettings::{difference, netted};
use crate::random::Random;
use crate::set::numbers;
use crate::set_betterments::{better, lent_alone};
use crate::set_orders;
use crate::tally::Tally;

/// At most so many betterments, one behind the other.
const BETTERMENTS: u64 = 3;

/// Betterments, none of which makes the weighted amount higher; of the set that they leave,
/// the order of its positions makes no difference, E* is not above all that was lent, and
/// what was lent alone weighs no less.
pub fn laws(
    random: &mut Random,
    set: &NettingSet,
    reply: NettingReply,
    tally: &mut Tally,
) -> Result<(), Difference> {
    let (set, reply) = bettered(random, set, reply, tally)?;
    let order = set_orders::another(random, &set);
    let after = netted(&numbers(&order.1), tally)?;
    let about = "another order with another reply";
    held(after == reply, about, [&set, &order.1], [reply, after])?;
    set_orders::meet(&mut tally.netting.orders, &set, &order);
    without_protection(&set, reply, tally)
}

/// The set as betterments leave it, and the reply to it.
fn bettered(
    random: &mut Random,
    set: &NettingSet,
    mut reply: NettingReply,
    tally: &mut Tally,
) -> Result<(NettingSet, NettingReply), Difference> {
    let mut set = set.clone();
    for _ in 0..random.below(BETTERMENTS + 1) {
        let Some(better) = better(random, &set) else {
            continue;
        };
        let after = netted(&numbers(&better.set), tally)?;
        let met = &mut tally.netting.betterments;
        if after.refusal != 0 {
            met.meet_refused(&better, after.refusal);
            continue;
        }
        let holds = after.rwa <= reply.rwa;
        let about = "a betterment that makes a set weigh more";
        held(holds, about, [&set, &better.set], [reply, after])?;
        met.meet(&set, &better, after.rwa < reply.rwa);
        (set, reply) = (better.set, after);
    }
    Ok((set, reply))
}

fn without_protection(
    set: &NettingSet,
    reply: NettingReply,
    tally: &mut Tally,
) -> Result<(), Difference> {
    let alone = lent_alone(set);
    let lent = Nets::of(set).lent;
    let after = netted(&numbers(&alone), tally)?;
    let holds = i128::from(reply.exposure) <= lent
        && i128::from(after.exposure) == lent
        && after.rwa >= reply.rwa
        && after.refusal == 0;
    let about = "a set that weighs more than what was lent alone, or is above it";
    held(holds, about, [set, &alone], [reply, after])?;
    tally.netting.meet_lent_alone(set, reply.rwa, after.rwa);
    Ok(())
}

/// A law of two sets, with the replies to both.
fn held(
    holds: bool,
    about: &str,
    sets: [&NettingSet; 2],
    replies: [NettingReply; 2],
) -> Result<(), Difference> {
    if holds {
        return Ok(());
    }
    let [before, after] = sets.map(numbers);
    let about = format!("{about}; it comes from {before:?}");
    let mut difference = difference(&about, &after, replies[0], replies[1]);
    difference.proved = format!("{:?}, then {:?}", replies[0], replies[1]);
    difference.reference = String::from("the same");
    Err(difference)
}

#[cfg(test)]
mod tests {
    use super::*;
    use crate::sides::Side;

    #[test]
    fn laws_that_do_not_hold_are_told() {
        let set = NettingSet::default();
        let reply = Side::Proved.net_set(&[]);
        assert!(held(true, "", [&set; 2], [reply; 2]).is_ok());
        let broken = held(false, "order", [&set; 2], [reply; 2]);
        assert!(broken.is_err_and(|difference| difference.about.starts_with("order; ")));
    }

    /// A set of 100 lent against 50, with replies that no library gives.
    #[test]
    fn wrong_replies_are_found() {
        let lent = [1, 100, 0, 1, 0, 0, 978].into();
        let received = [2, 50, 0, 1, 0, 0, 978].into();
        let set = NettingSet::new([2, 3, 4, 0, 978, 1], vec![lent, received]);
        let holds = |exposure, rwa| {
            let reply = NettingReply {
                refusal: 0,
                exposure,
                rwa,
            };
            without_protection(&set, reply, &mut Tally::new()).is_ok()
        };
        assert!(holds(50, 50) && holds(100, 100));
        assert!(!holds(101, 100) && !holds(50, 101));
        let reply = Side::Proved.net_set(&numbers(&set));
        let random = &mut Random::new(173, 1);
        assert!(laws(random, &set, reply, &mut Tally::new()).is_ok());
        let lower = NettingReply { rwa: 0, ..reply };
        assert!(laws(random, &set, lower, &mut Tally::new()).is_err());
    }
}
