//! The weighted amount mistaken.

use reference::NettingSet;

use crate::mistaken_nets::other_table;
use crate::nets::{Nets, WHOLE};
use crate::netting_mistakes::Mistake::{self, *};
use crate::weighing::{is_floored, own_weight, sovereign_weight, weight, BANK, CORPORATE};

/// E*, mistaken already or not, and the weighted amount with this mistake.
pub fn mistaken(set: &NettingSet, nets: &Nets, mistake: Mistake, exposure: u64) -> [u64; 2] {
    let hundredfold = exposure * mistaken_weight(set, mistake);
    let weighted = hundredfold.div_ceil(100);
    match mistake {
        WeightedDown => [exposure, hundredfold / 100],
        WeightedNearest => [exposure, (hundredfold + 50) / 100],
        WeightedLent => [exposure, nets.weighted_of(nets.lent as u64)],
        WeightedUnrounded => [exposure, unrounded(nets)],
        Exchanged => [weighted, exposure],
        _ => [exposure, weighted],
    }
}

fn unrounded(nets: &Nets) -> u64 {
    let millionths = nets.millionths().clamp(0, nets.lent * WHOLE);
    let hundredfold = millionths * i128::from(nets.weight);
    (hundredfold as u128).div_ceil(100 * WHOLE as u128) as u64
}

fn mistaken_weight(set: &NettingSet, mistake: Mistake) -> u64 {
    let party = [set.class, set.step, set.sovereign_step];
    let own = own_weight(set.table, set.class, set.step);
    let sovereign = sovereign_weight(party);
    match mistake {
        NoFloor => own,
        FloorAlone if is_floored(party) => sovereign,
        FloorSmaller if is_floored(party) => own.min(sovereign),
        FloorOfRated if [BANK, CORPORATE].contains(&set.class) => own.max(sovereign),
        OtherWeights => weight(other_table(set.table), party),
        _ => weight(set.table, party),
    }
}
