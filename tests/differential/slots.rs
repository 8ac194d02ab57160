//! The slot calls.

use crate::archive;
use crate::store;
use crate::walls;
use crate::{Call, Run};

/// Every flow of the smaller walls, many of the larger ones, in the reversed order and at spreads, and numbers out of range.
pub fn slots(run: &mut Run, case: u64) {
    let bits = 6 + case;
    let flows = 1u64 << bits;
    for (spread, most) in [(0, 14), (1, 11), (3, 11), (flows / 2 + 1, 11), (flows - 1, 13), (2 * run.rng.below(flows / 2) + 1, 13)] {
        let step = (flows >> most).max(1);
        for n in 0..flows / step {
            let flow = n * step + run.rng.below(step);
            let (_, found) = slot(run, bits, spread, flow);
            let back = walls::back(bits, spread);
            let again = slot(run, bits, back, found);
            run.expect(Call::Slot { bits, spread: back, flow: found }, again, (0, flow));
        }
    }
    for _ in 0..1000 {
        let rng = &mut run.rng;
        let spread = if rng.one_in(2) { walls::spread(rng, bits) } else { walls::no_spread(rng, bits) };
        let flow = if rng.one_in(4) { rng.odd_word() } else { rng.below(flows) };
        slot(run, bits, spread, flow);
    }
    let no_spreads = [2, flows / 2, flows - 2, flows, flows + 1, (1 << 32) + 1, (1 << 32) + flows - 1, 1 << 63, u64::MAX];
    for spread in [0, 1, flows - 1].into_iter().chain(no_spreads) {
        for flow in [0, 1, flows - 1, flows, flows + 1, 2 * flows, 1 << 32, 1 << 63, u64::MAX] {
            slot(run, bits, spread, flow);
            for bits in [0, 1, 5, 23, 24, 63, 64, 65, 255, 256, 256 + bits, (1 << 32) + bits, 1 << 63, u64::MAX] {
                slot(run, bits, spread, flow);
            }
        }
    }
}

/// Every number up to above 2^b as the spread of b 6, 7 and 8: each spread gives every slot to one flow, and all others are refused.
pub fn spreads(run: &mut Run, case: u64) {
    let bits = 6 + case;
    let flows = 1u64 << bits;
    for spread in 0..2 * flows + 2 {
        if spread == 0 || spread % 2 == 1 && spread < flows {
            let mut slots: Vec<u64> = (0..flows).map(|flow| slot(run, bits, spread, flow).1).collect();
            slots.sort();
            if !slots.into_iter().eq(0..flows) {
                println!("differential: the two stores agree, and some slot has no flow");
                run.disagree(Call::Slot { bits, spread, flow: 0 }, (0, 0), (0, 0));
            }
        } else {
            for flow in [0, flows - 1, flows] {
                let found = slot(run, bits, spread, flow);
                run.expect(Call::Slot { bits, spread, flow }, found, (15, 0));
            }
        }
    }
}

fn slot(run: &mut Run, bits: u64, spread: u64, flow: u64) -> (u64, u64) {
    let ours = store::slot(bits, spread, flow);
    run.met.spreads.slot(bits, spread, flow, ours);
    run.compare(Call::Slot { bits, spread, flow }, ours, archive::slot(bits, spread, flow))
}
