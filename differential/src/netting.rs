//! Netting sets that a run met, and the cases of them that it should meet.

use std::collections::BTreeMap;

use reference::NettingSet;

use crate::cells::{cell, Cells};
use crate::disagreeing::Disagreeing;
use crate::due_tests;
use crate::net_bounds::NetBounds;
use crate::net_figures::NetFigures;
use crate::net_shapes::NetShapes;
use crate::nets::Nets;
use crate::netting_mistakes;
use crate::parties::of_classes;
use crate::received::Received;
use crate::set::{from_numbers, TABLES};
use crate::set_betterments::Betterments;
use crate::set_entries::Entries;
use crate::set_orders;
use crate::set_sizes::Sizes;
use crate::sets::Kind;
use crate::wrong::Wrong;

/// Refusals, and 0.
const REFUSALS: [u64; 11] = [0, 1, 2, 3, 4, 5, 6, 11, 15, 16, 17];

/// A set beside what was lent of it alone: that weighs more, or as much; nothing was
/// received, or nothing lent.
const WEIGHS_MORE: u64 = 1;
const AS_MUCH: u64 = 2;
const NOTHING_RECEIVED: u64 = 3;
const NOTHING_LENT: u64 = 4;

pub struct Netting {
    pub sets: BTreeMap<&'static str, u64>,
    pub accepted: u64,
    /// Sets that both sides netted, those of laws and of wrongs among them.
    pub netted: u64,
    pub refusals: Cells,
    entries: Entries,
    pairs: Cells,
    disagreeing: Disagreeing,
    received: Received,
    sizes: Sizes,
    parties: Cells,
    figures: NetFigures,
    shapes: NetShapes,
    bounds: NetBounds,
    mistakes: Cells,
    pub betterments: Betterments,
    pub orders: Cells,
    lent_alone: Cells,
}

impl Netting {
    pub fn new() -> Self {
        let parties = TABLES.into_iter().flat_map(|table| {
            let parties = of_classes(1..=4);
            parties.map(move |[class, step, sovereign]| cell(&[table, class, step, sovereign]))
        });
        let alone = TABLES.into_iter().flat_map(|table| {
            (WEIGHS_MORE..=NOTHING_LENT).map(move |beside| cell(&[table, beside]))
        });
        Netting {
            sets: BTreeMap::new(),
            accepted: 0,
            netted: 0,
            refusals: Cells::of_numbers("refusals of netting sets", REFUSALS),
            entries: Entries::new(),
            pairs: due_tests::cells("sets, two tests that fail: given, other, in which positions"),
            disagreeing: Disagreeing::new(),
            received: Received::new(),
            sizes: Sizes::new(),
            parties: Cells::new(
                "sets, weights: table, class, step, sovereign's step",
                parties,
            ),
            figures: NetFigures::new(),
            shapes: NetShapes::new(),
            bounds: NetBounds::new(),
            mistakes: netting_mistakes::cells("sets, what shows: table, mistake"),
            betterments: Betterments::new(),
            orders: set_orders::cells("sets, other orders: how, how many positions"),
            lent_alone: Cells::new(
                "sets beside what was lent alone: table, how it weighs",
                alone,
            ),
        }
    }

    pub fn families(&self) -> Vec<&Cells> {
        let mut families = vec![&self.refusals];
        families.extend(self.entries.families());
        families.push(&self.pairs);
        families.extend(self.disagreeing.families());
        families.extend(self.received.families());
        families.extend(self.sizes.families());
        families.push(&self.parties);
        families.extend(self.figures.families());
        families.extend(self.shapes.families());
        families.extend(self.bounds.families());
        families.push(&self.mistakes);
        families.extend(self.betterments.families());
        families.extend([&self.orders, &self.lent_alone]);
        families
    }

    pub fn meet_kind(&mut self, kind: Kind) {
        *self.sets.entry(kind.name()).or_default() += 1;
    }

    /// Numbers that were sent, with the refusal that both sides gave.
    pub fn meet(&mut self, sent: &[u64], refusal: u64) {
        self.refusals.meet(&[refusal]);
        self.sizes.meet(sent.len(), refusal);
        if let Some(set) = from_numbers(sent) {
            self.bounds.meet_sum(&set, refusal);
            self.received.meet(&set, refusal);
        }
    }

    /// An accepted set and what it comes to.
    pub fn meet_accepted(&mut self, set: &NettingSet, nets: &Nets) {
        self.accepted += 1;
        self.entries.meet_accepted(set);
        self.figures.meet(set, nets);
        self.shapes.meet(set, nets);
        self.bounds.meet(set, nets);
        netting_mistakes::meet(&mut self.mistakes, set, nets);
        // A weight shows where it makes a difference.
        if nets.exposure() > 0 {
            let party = [set.table, set.class, set.step, set.sovereign_step];
            self.parties.meet(&party);
        }
    }

    /// Wrongs of an accepted set, with the refusals of each alone and of all together.
    pub fn meet_wrongs(&mut self, base: &[u64], wrongs: &[Wrong], alone: &[u64], all: u64) {
        for (wrong, refusal) in wrongs.iter().zip(alone) {
            self.entries.meet_wrong(base, wrong, *refusal);
            self.disagreeing.meet(base, wrong, *refusal);
        }
        if let ([one, other], [first, second]) = (wrongs, alone) {
            due_tests::meet(&mut self.pairs, [one, other], [*first, *second], all);
        }
    }

    /// An accepted set beside its lent positions alone, with both weighted amounts.
    pub fn meet_lent_alone(&mut self, set: &NettingSet, weighted: u64, alone: u64) {
        let nets = Nets::of(set);
        let beside = match (nets.lent, nets.received) {
            (0, _) => NOTHING_LENT,
            (_, 0) => NOTHING_RECEIVED,
            _ if alone > weighted => WEIGHS_MORE,
            _ => AS_MUCH,
        };
        self.lent_alone.meet(&[set.table, beside]);
    }
}

#[cfg(test)]
mod tests {
    use super::*;

    #[test]
    fn every_family_is_listed() {
        let netting = Netting::new();
        let all = Vec::from_iter(netting.families().iter().map(|cells| cells.all()));
        assert_eq!(all.len(), 29);
        assert_eq!(all[0], 11);
        // Parties: sovereigns, two classes with their sovereign's step, retail.
        assert_eq!(netting.parties.all(), 2 * (7 + 2 * 7 * 7 + 1));
        assert_eq!(all.iter().sum::<usize>(), 3930);
    }
}
