//! What the busy calls of a run met on walls that the check accepts.

use crate::store::{self, PLACES};
use crate::walls::Plan;

/// From the ninth on: how many words are lent where there are flows to list, and, the last two, where there is none.
const MET: [&str; 17] = [
    "no flow listed",
    "some flows listed",
    "all flows listed",
    "in another order than the slots'",
    "a flow at the floor listed",
    "a flow one below the floor left out",
    "a moved place listed",
    "an unmoved place of a flagged bucket listed",
    "14 by two words, an even length",
    "14 by one word, an odd length",
    "listed in exactly the words needed",
    "listed with one word more, an odd length",
    "words kept after the last entry",
    "14 with no word lent",
    "14 by one word for all flows",
    "no flow, no word lent",
    "no flow, every word kept",
];

#[derive(Default)]
pub struct Listed {
    /// By shape from 3.
    met: [[u64; MET.len()]; 3],
}

fn slot(plan: &Plan, flow: u64) -> usize {
    store::slot(plan.bits, plan.spread, flow).1 as usize
}

/// Whether a flow of at least the floor stands in a flagged bucket at a place that is moved, or at one that is not.
fn in_flagged(plan: &Plan, words: &[u64], counts: &[u64], floor: u64, moved: bool) -> bool {
    (0..plan.buckets()).any(|n| {
        let packed = words[plan.bucket_at(n) + plan.packed()];
        packed >> 40 & 1 == 1 && {
            let flags = words[plan.full_at((packed >> 48) as usize)];
            let mut places = (0..PLACES).filter(|place| (flags >> place & 1 == 1) == moved);
            places.any(|place| counts[plan.flow(n, place) as usize] >= floor)
        }
    })
}

impl Listed {
    pub fn busy(&mut self, plan: &Plan, words: &[u64], counts: &[u64], floor: u64, length: usize) {
        let flows: Vec<u64> = (0..plan.flows()).filter(|flow| counts[*flow as usize] >= floor).collect();
        let needed = 2 * flows.len();
        let done = needed <= length;
        let (none, all) = (needed == 0, flows.len() == counts.len());
        let met = [
            none,
            done && !none && !all,
            done && all,
            done && flows.windows(2).any(|two| slot(plan, two[0]) > slot(plan, two[1])),
            done && counts.contains(&floor),
            done && floor > 0 && counts.contains(&(floor - 1)),
            done && !none && in_flagged(plan, words, counts, floor, true),
            done && !none && in_flagged(plan, words, counts, floor, false),
            length + 2 == needed,
            length + 1 == needed,
            !none && length == needed,
            !none && length == needed + 1,
            !none && length > needed,
            !none && length == 0,
            all && length + 1 == needed,
            none && length == 0,
            none && length > 0,
        ];
        let counts = &mut self.met[plan.shape as usize - 3];
        counts.iter_mut().zip(met).for_each(|(count, met)| *count += met as u64);
    }

    pub fn print(&self) {
        println!("\nbusy calls on walls that the check accepts, by shape 3, 4, 5:");
        for (n, name) in MET.iter().enumerate() {
            println!("{name:43} {:>7} {:>8} {:>8}", self.met[0][n], self.met[1][n], self.met[2][n]);
        }
    }

    /// What no call on a wall of this shape, from 3, met.
    pub fn missing(&self, shape: usize) -> impl Iterator<Item = &'static str> + '_ {
        MET.iter().zip(&self.met[shape]).filter(|(_, count)| **count == 0).map(|(name, _)| *name)
    }
}
