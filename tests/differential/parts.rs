//! The parts of a run: which walls are made, and which calls on them. Those of the largest sizes that are not random are in corners.rs, the slot calls in
//! slots.rs.

use crate::archive;
use crate::busy;
use crate::corners;
use crate::slots;
use crate::store::{self, PLACES};
use crate::walls::{self, Plan, Rng, Wall};
use crate::{Call, Run};

pub struct Part {
    pub name: &'static str,
    pub cases: u64,
    pub run: fn(&mut Run, u64),
}

pub const PARTS: &[Part] = &[
    Part { name: "raise", cases: GRID, run: raise },
    Part { name: "hostile", cases: 2000, run: hostile },
    Part { name: "fresh", cases: GRID, run: fresh },
    Part { name: "long", cases: 24, run: long },
    Part { name: "grown", cases: 4 * GRID, run: grown },
    Part { name: "bits", cases: 48, run: bits },
    Part { name: "damage", cases: 70_000, run: damage },
    Part { name: "unsound", cases: 30_000, run: unsound },
    Part { name: "headers", cases: 150, run: headers },
    Part { name: "reread", cases: GRID / 4, run: reread },
    Part { name: "large", cases: 39, run: large },
    Part { name: "slots", cases: 17, run: slots::slots },
    Part { name: "spreads", cases: 3, run: slots::spreads },
    Part { name: "limits", cases: 300, run: limits },
    Part { name: "images", cases: 4000, run: images },
    Part { name: "numbers", cases: corners::SHAPES_AND_WIDTHS, run: corners::numbers },
    Part { name: "brink", cases: corners::SHAPES_AND_WIDTHS, run: corners::brink },
    Part { name: "ends", cases: corners::SHAPES_AND_BITS, run: corners::ends },
];

/// Shapes 3, 4, 5; widths 0 to 16; b 6 to 9; J 0 to 3.
const GRID: u64 = 3 * 17 * 4 * 4;

fn grid(case: u64) -> (u64, u64, u64, u64) {
    (3 + case % 3, case / 3 % 17, 6 + case / 51 % 4, case / 204 % 4)
}

/// A plan of the grid, with the default width for 0 and no more full-size buckets than buckets, and some spread.
fn grid_plan(rng: &mut Rng, case: u64) -> Plan {
    let (shape, width, bits, full) = grid(case);
    let spread = walls::spread(rng, bits);
    Plan::new(shape, if width == 0 { 7 } else { width }, bits, full.min(1 << (bits - 6)) as usize).spread(spread)
}

impl Plan {
    /// The raise of a wall of this plan.
    pub fn raise(&self, limit: u64) -> Call {
        Call::Raise { shape: self.shape, width: self.width, bits: self.bits, limit, full: self.full as u64, spread: self.spread }
    }
}

/// Raise at each point of the grid: limits on both sides of their edges, the exact length and wrong ones, spreads and others.
fn raise(run: &mut Run, case: u64) {
    let (shape, width, bits, full) = grid(case);
    let mut plan = grid_plan(&mut run.rng, case);
    plan.full = full as usize; // over h too
    let exact = plan.length();
    let top = plan.top();
    for limit in [1, 2, run.rng.between(1, top), top - 1, top, top + 1, 0, u64::MAX, 1 << 63] {
        let shorter = plan.length() - plan.stride();
        for length in [exact, exact - 1, exact + 1, 0, 3, 4, shorter, exact + plan.stride(), exact + 65, exact.saturating_sub(65)] {
            run.load_random(length);
            let spread = if run.rng.one_in(8) { walls::no_spread(&mut run.rng, bits) } else { walls::spread(&mut run.rng, bits) };
            let (number, _) = run.call(Call::Raise { shape, width, bits, limit, full, spread });
            if number == 0 {
                run.call(Call::Check);
                let none = vec![0; plan.flows() as usize];
                busy::known(run, &none, 1);
                for flow in [0, 1, plan.flows() - 1, plan.flows(), u64::MAX] {
                    run.call(Call::Lookup { flow });
                    run.call(Call::Increment { flow });
                }
                run.call(Call::Close);
                run.call(Call::Check);
                busy::known(run, &none, 1);
            }
        }
    }
}

/// A number that is good, or stands near an edge, or is good in its low bits only.
fn argument(rng: &mut Rng, good: u64) -> u64 {
    if !rng.one_in(4) {
        return good;
    }
    match rng.below(4) {
        0 => rng.pick(&[0, 1, 2, 3, 4, 5, 6, 7, 15, 16, 17, 18, 22, 23, 24, 63, 64, 65, 128, 255, 256, 4096, 4097, 65535, 65536]),
        1 => good.wrapping_add(rng.pick(&[1, 2, u64::MAX])),
        2 => good.wrapping_add(rng.pick(&[1 << 8, 1 << 16, 1 << 31, 1 << 32, 1 << 48, 1 << 63])),
        _ => rng.odd_word(),
    }
}

/// Raise with arguments of all sizes.
fn hostile(run: &mut Run, _: u64) {
    for _ in 0..50 {
        let rng = &mut run.rng;
        let plan = Plan::new(rng.between(3, 5), rng.between(1, 16), rng.between(6, 9), rng.index(4));
        let shape = argument(rng, plan.shape);
        let width = argument(rng, plan.width);
        let bits = argument(rng, plan.bits);
        let limit = rng.between(1, plan.top());
        let limit = argument(rng, limit);
        let full = argument(rng, plan.full as u64);
        let spread = walls::spread(rng, plan.bits);
        let spread = argument(rng, spread);
        let length = if rng.one_in(4) { rng.index(600) } else { plan.length() };
        run.load_random(length);
        run.call(Call::Raise { shape, width, bits, limit, full, spread });
    }
}

/// Increments of skewed flows, with lookups, checks and busy lists between, over a sound wall whose counts are known by flow.
fn drive(run: &mut Run, plan: &Plan, counts: &mut [u64], hot: &[u64], steps: u64, check_each: u64) {
    for step in 0..steps {
        let rng = &mut run.rng;
        let flow = match rng.below(32) {
            0 => rng.below(plan.flows()),
            1 => rng.pick(&[plan.flows(), plan.flows() + 1, 2 * plan.flows(), 1 << 32, u64::MAX]),
            _ => hot[rng.index(hot.len()).min(rng.index(hot.len()))],
        };
        if rng.one_in(6) {
            look(run, plan, counts, flow);
        }
        let call = Call::Increment { flow };
        let answer = run.call(call);
        match answer.0 {
            0 => {
                counts[flow as usize] += 1;
                run.expect(call, answer, (0, counts[flow as usize]));
            }
            10 | 12 if run.rng.one_in(40) => {
                run.call(Call::Close);
                counts.fill(0);
            }
            _ => {}
        }
        if step % check_each == 0 {
            run.answers(Call::Check, (0, 0));
            busy::known(run, counts, 1);
        }
    }
    for flow in 0..plan.flows() {
        look(run, plan, counts, flow);
    }
    run.answers(Call::Check, (0, 0));
    busy::known(run, counts, 3);
}

fn look(run: &mut Run, plan: &Plan, counts: &[u64], flow: u64) {
    let expected = if flow < plan.flows() { (0, counts[flow as usize]) } else { (8, 0) };
    run.answers(Call::Lookup { flow }, expected);
}

/// After increments from a fresh wall: the flagged buckets are the crowded ones, and the words of each other bucket are those of its counts.
fn agrees_with_history(run: &mut Run, plan: &Plan, counts: &[u64]) {
    for n in 0..plan.buckets() {
        let counts: Vec<u64> = (0..PLACES).map(|place| counts[plan.flow(n, place) as usize]).collect();
        let at = plan.bucket_at(n);
        let flagged = run.ours[at + plan.packed()] >> 40 & 1 == 1;
        let same = flagged || run.ours[at..at + plan.stride()] == plan.encode(&counts, false, 0);
        if flagged != plan.crowded(&counts) || !same {
            println!("differential: the two stores agree, and the increments so far say otherwise of bucket {n}");
            run.disagree(Call::Check, (0, n as u64), (0, n as u64));
        }
    }
}

/// A limit that a run meets, soon or not at all.
fn limit(rng: &mut Rng, plan: &Plan) -> u64 {
    match rng.below(6) {
        0 => rng.between(1, 60),
        1 => plan.top().min(rng.between(60, 2000)),
        _ => plan.top(),
    }
}

/// Long runs from a fresh wall, then a close.
fn fresh(run: &mut Run, case: u64) {
    let plan = grid_plan(&mut run.rng, case);
    let (_, width, _, _) = grid(case);
    let limit = limit(&mut run.rng, &plan);
    run.load_random(plan.length());
    run.call(Call::Raise { shape: plan.shape, width, bits: plan.bits, limit, full: plan.full as u64, spread: plan.spread });
    let fresh = run.ours.clone();
    // few places that grow far, or many that grow a little, in more buckets than there are full-size ones
    let rng = &mut run.rng;
    let buckets = 1 + rng.index(plan.buckets().min(plan.full + 2));
    let places = rng.pick(&[1, 2, 2, 3, 4, 5, 8, 12, 16, 20, 27, 32, 64]);
    let mut hot = Vec::new();
    for _ in 0..buckets {
        let bucket = rng.index(plan.buckets());
        hot.extend((0..places).map(|_| plan.flow(bucket, rng.index(PLACES))));
    }
    rng.shuffle(&mut hot);
    let steps = 500 + rng.below(if plan.width < 4 { 3000 } else { 1000 });
    let mut counts = vec![0; plan.flows() as usize];
    drive(run, &plan, &mut counts, &hot, steps, 97);
    agrees_with_history(run, &plan, &counts);
    run.leaves(Call::Close, (0, 0), &fresh);
    run.answers(Call::Check, (0, 0));
}

/// Widths 9 to 16 from a fresh wall until a place crosses into level 2.
fn long(run: &mut Run, case: u64) {
    let plan = Plan::new(3 + case % 3, 9 + case / 3, 6, 1).spread(walls::spread(&mut run.rng, 6));
    run.load_random(plan.length());
    run.call(plan.raise(plan.top()));
    let hot = [run.rng.below(64), run.rng.below(64)];
    let mut counts = vec![0; plan.flows() as usize];
    drive(run, &plan, &mut counts, &hot, (3 << plan.width) / 2, 4001);
    agrees_with_history(run, &plan, &counts);
}

/// The counts of each bucket, in the order of the flows.
fn by_flow(plan: &Plan, counts: &[Vec<u64>]) -> Vec<u64> {
    let mut by_flow = vec![0; plan.flows() as usize];
    for (n, bucket) in counts.iter().enumerate() {
        for (place, count) in bucket.iter().enumerate() {
            by_flow[plan.flow(n, place) as usize] = *count;
        }
    }
    by_flow
}

/// Runs from a sound wall whose counts stand where increments would take long to bring them.
fn grown(run: &mut Run, case: u64) {
    let plan = grid_plan(&mut run.rng, case);
    let wall = Wall::random(&mut run.rng, &plan);
    run.load(&wall.words());
    let by_bucket = wall.counts();
    let mut counts = by_flow(&plan, &by_bucket);
    let mut hot = Vec::new();
    for (n, bucket) in by_bucket.iter().enumerate() {
        for (place, count) in bucket.iter().enumerate() {
            // those that the next increments carry into a new level or through several
            if (2..=plan.levels.count()).any(|d| (count + 2) % plan.start(d) < 2) || run.rng.one_in(20) {
                hot.push(plan.flow(n, place));
            }
        }
    }
    run.rng.shuffle(&mut hot);
    hot.push(run.rng.below(plan.flows()));
    run.answers(Call::Check, (0, 0));
    busy::known(run, &counts, 1);
    let steps = 20 + run.rng.below(100);
    drive(run, &plan, &mut counts, &hot, steps, 25);
}

/// A raise and a header with an m that is no spread.
fn no_spread(run: &mut Run, plan: &Plan) {
    run.answers(plan.raise(plan.top()), (15, 0));
    let mut words = run.ours.clone();
    words[..4].copy_from_slice(&[plan.first_word(), plan.top(), 0, plan.fourth_word(0)]);
    run.load(&words);
    for call in [Call::Check, Call::Lookup { flow: 0 }, Call::Increment { flow: 0 }, Call::Close] {
        run.answers(call, (7, 0));
    }
    run.busy(0, 2, Err(7));
}

/// Every call on these words. Each increment and the close start from them again.
fn all_calls(run: &mut Run, plan: &Plan, words: &[u64], bucket: usize) {
    run.load(words);
    let checked = run.call(Call::Check);
    if run.lists.rng.one_in(3) {
        busy::as_checked(run, checked);
    }
    let rng = &mut run.rng;
    let far = rng.pick(&[plan.flows(), plan.flows() - 1, u64::MAX, 1 << 22]);
    let mut flows = vec![plan.flow(bucket, rng.index(PLACES)), far, rng.below(plan.flows())];
    // of the bucket, a place that goes on and one that does not
    let at = plan.bucket_at(bucket) + plan.i1();
    if at < words.len() {
        for want in [0, 1] {
            let places: Vec<usize> = (0..PLACES).filter(|place| words[at] >> place & 1 == want).collect();
            if !places.is_empty() {
                flows.push(plan.flow(bucket, rng.pick(&places)));
            }
        }
    }
    for n in 0..plan.buckets().min(8) {
        let flow = plan.flow(n, run.rng.index(PLACES));
        run.call(Call::Lookup { flow });
    }
    for flow in &flows {
        run.call(Call::Lookup { flow: *flow });
    }
    for flow in &flows {
        run.load(words);
        run.call(Call::Increment { flow: *flow });
        if run.ours != words && run.rng.one_in(4) {
            // what the increment left behind
            run.call(Call::Check);
            run.call(Call::Lookup { flow: *flow });
            run.call(Call::Increment { flow: *flow });
        }
    }
    run.load(words);
    if run.call(Call::Close).0 == 0 {
        run.call(Call::Check);
    }
}

/// Random sound walls, damaged in one to three ways, of the right length or not.
fn damage(run: &mut Run, case: u64) {
    let rng = &mut run.rng;
    let plan = grid_plan(rng, case);
    let mut words = Wall::random(rng, &plan).words();
    let mut bucket = 0;
    for _ in 0..rng.pick(&[1, 1, 1, 2, 3]) {
        bucket = walls::damage(rng, &plan, &mut words);
    }
    match rng.below(6) {
        0 => walls::retotal(rng, &plan, &mut words, false),
        1 | 2 => walls::retotal(rng, &plan, &mut words, true),
        _ => {}
    }
    if rng.one_in(20) {
        walls::wrong_length(rng, &plan, &mut words);
    }
    all_calls(run, &plan, &words, bucket);
}

/// Each bit of each word of a wall flipped, for each shape and width.
fn bits(run: &mut Run, case: u64) {
    let plan = Plan::new(3 + case % 3, 1 + case / 3, 6, 1).spread(walls::spread(&mut run.rng, 6));
    let sound = Wall::random(&mut run.rng, &plan).words();
    for bit in 0..64 * sound.len() {
        let mut words = sound.clone();
        words[bit / 64] ^= 1 << (bit % 64);
        let flow = run.rng.below(plan.flows());
        run.load(&words);
        let checked = run.call(Call::Check);
        if run.lists.rng.one_in(8) {
            busy::as_checked(run, checked);
        }
        run.call(Call::Lookup { flow });
        run.call(Call::Increment { flow });
        run.call(Call::Close);
    }
}

/// Walls that are unsound in one way only.
fn unsound(run: &mut Run, case: u64) {
    let plan = grid_plan(&mut run.rng, case / walls::UNSOUND);
    let (words, bucket) = walls::unsound(&mut run.rng, &plan, case % walls::UNSOUND);
    all_calls(run, &plan, &words, bucket);
}

/// Each bit of the header flipped, and headers that are wrong in one number and have the length that this number asks for.
fn headers(run: &mut Run, case: u64) {
    let point = run.rng.below(GRID);
    let plan = grid_plan(&mut run.rng, point);
    let mut sound = Wall::random(&mut run.rng, &plan).words();
    if case % 2 == 0 {
        walls::retotal(&mut run.rng, &plan, &mut sound, true);
    }
    let bucket = run.rng.index(plan.buckets());
    for bit in 0..256 {
        let mut words = sound.clone();
        words[bit / 64] ^= 1 << (bit % 64);
        all_calls(run, &plan, &words, bucket);
    }
    let byte = |words: &[u64], n: u32, value: u64| {
        let mut words = words.to_vec();
        words[0] = words[0] & !(0xff << (8 * n)) | value << (8 * n);
        words
    };
    let upper = plan.levels.count();
    let size = |buckets: usize, width: usize, full: usize| 4 + buckets * (width + upper + 1) + 65 * full;
    let mut wrong = Vec::new();
    for n in 0..8 {
        for value in [0, 1, 2, 5, 6, 7, 16, 17, 18, 22, 23, 64, 128, 254, 255, run.rng.below(256)] {
            wrong.push(byte(&sound, n, value));
        }
    }
    // widths 0 and 17, b 5 and below (no bucket), with the words that they would take
    for width in [0, 17, 18, 32] {
        let mut words = byte(&sound, 6, width);
        words.resize(size(plan.buckets(), width as usize, plan.full), 0);
        wrong.push(words);
    }
    for bits in [0, 1, 5] {
        for full in [0, plan.full] {
            let mut words = byte(&sound, 7, bits);
            words[3] = full as u64;
            words.truncate(size(0, 0, full));
            wrong.push(words);
        }
    }
    // J at h and above it
    for full in [plan.buckets() - 1, plan.buckets(), plan.buckets() + 1, plan.buckets() + 2] {
        let mut words = sound.clone();
        words[3] = words[3] & !0xffff | full as u64;
        words.resize(size(plan.buckets(), plan.width as usize, full), 0);
        wrong.push(words);
    }
    // the numbers of words 1, 2 and 3
    for (i, value) in [
        (1, plan.top()),
        (1, plan.top() + 1),
        (1, 0),
        (1, sound[2]),
        (1, sound[2].wrapping_sub(1)),
        (1, u64::MAX),
        (2, sound[1]),
        (2, sound[1] + 1),
        (2, u64::MAX),
        (3, plan.fourth_word(plan.full)),
        (3, plan.fourth_word(plan.full + 1)),
        (3, sound[3] | 0xffff << 16),
        (3, sound[3] | 0xffff),
        (3, u64::MAX),
    ] {
        let mut words = sound.clone();
        words[i] = value;
        wrong.push(words);
    }
    let flows = plan.flows();
    for m in [0, 1, 2, flows / 2, flows - 2, flows - 1, flows, flows + 1, 2 * flows - 1, (1 << 16) + 1, 1 << 31, (1 << 31) + 1, 0xffff_ffff] {
        let mut words = sound.clone();
        words[3] = words[3] & 0xffff_ffff | m << 32;
        wrong.push(words);
    }
    // all the largest at once, behind a good mark and version or not
    for first in [u64::MAX, 0xffff_ff00_014c_5742, sound[0]] {
        let mut words = sound.clone();
        words[..4].fill(u64::MAX);
        words[0] = first;
        wrong.push(words);
    }
    for length in 0..6.min(sound.len()) {
        wrong.push(sound[..length].to_vec());
    }
    for words in &wrong {
        all_calls(run, &plan, words, bucket);
    }
}

/// The same buckets at one spread after the other: each flow's count is that of its slot at this spread. Then a raise over them with another.
fn reread(run: &mut Run, case: u64) {
    let mut plan = grid_plan(&mut run.rng, case);
    plan.full = run.rng.index(plan.buckets().min(3) + 1);
    let wall = Wall::random(&mut run.rng, &plan);
    let flows = plan.flows();
    for spread in [plan.spread, 0, 1, flows - 1, 2 * run.rng.below(flows / 2) + 1] {
        let wall = Wall { plan: plan.clone().spread(spread), ..wall.clone() };
        let counts = by_flow(&wall.plan, &wall.counts());
        run.load(&wall.words());
        run.answers(Call::Check, (0, 0));
        busy::known(run, &counts, 2);
        (0..flows).for_each(|flow| look(run, &plan, &counts, flow));
        for _ in 0..10 {
            let flow = run.rng.below(flows);
            run.call(Call::Increment { flow });
        }
        run.leaves(Call::Close, (0, 0), &wall.emptied().words());
        let other = Wall { plan: plan.clone().spread((spread == 0) as u64), ..wall.emptied() };
        run.load(&wall.words());
        run.leaves(other.plan.raise(wall.limit), (0, 0), &other.words());
    }
}

/// b from 10 to 22, J to 4,096, in each shape, and in one the largest spread, in another some spread.
fn large(run: &mut Run, case: u64) {
    let (shape, bits) = (3 + case % 3, 10 + case / 3);
    let buckets = 1usize << (bits - 6);
    let width = if bits == 22 && shape == 5 { 16 } else { run.rng.between(1, 16) };
    let most = buckets.min(4096);
    let flows = 1 << bits;
    let spread = [flows - 1, 2 * run.rng.below(flows / 2) + 1, 0][case as usize % 3];
    let mut plan = Plan::new(shape, width, bits, most).spread(spread);
    let limit = plan.top();
    // one J too many, with the words that it would take
    plan.full = most + 1;
    run.load_random(plan.length());
    run.call(plan.raise(limit));
    let mut words = vec![0; plan.length()];
    words[..4].copy_from_slice(&[plan.first_word(), limit, 0, plan.fourth_word(0)]);
    run.load(&words);
    run.call(Call::Check);
    run.call(Call::Lookup { flow: 0 });
    run.call(Call::Increment { flow: 0 });
    run.call(Call::Close);
    // no spread; then the most; then b one too high, or J without its words
    plan.full = most;
    run.load_random(plan.length());
    for spread in [flows - 2, flows, flows + 1] {
        no_spread(run, &plan.clone().spread(spread));
    }
    run.answers(plan.raise(limit), (0, 0));
    run.call(Call::Check);
    for flow in [0, 1, plan.flows() - 1, plan.flows(), u64::MAX] {
        for _ in 0..3 {
            run.call(Call::Increment { flow });
            run.call(Call::Lookup { flow });
        }
    }
    if bits <= 18 {
        let mut counts = vec![0; plan.flows() as usize];
        for flow in [0, 1, plan.flows() - 1] {
            counts[flow as usize] = 3;
        }
        busy::known(run, &counts, 1);
    }
    run.call(Call::Close);
    if bits == 22 {
        let above = Plan::new(shape, 1, 23, 0);
        let mut words = vec![0; above.length()];
        words[..4].copy_from_slice(&[above.first_word(), limit.min(above.top()), 0, 0]);
        run.load(&words);
        run.call(Call::Check);
        run.call(Call::Lookup { flow: 0 });
        run.call(Call::Increment { flow: 0 });
        run.call(Call::Close);
        run.call(above.raise(1));
    }
    // many full-size buckets in use
    if bits <= 18 {
        let plan = Plan::new(shape, 16, bits, most).spread(spread);
        let wall = Wall::random(&mut run.rng, &plan);
        let words = wall.words();
        run.load(&words);
        run.answers(Call::Check, (0, 0));
        let counts = wall.counts();
        busy::known(run, &by_flow(&plan, &counts), 2);
        for _ in 0..20 {
            let n = match wall.moved.is_empty() || run.rng.one_in(4) {
                true => run.rng.index(buckets),
                false => wall.moved[run.rng.index(wall.moved.len())].0,
            };
            let place = run.rng.index(PLACES);
            let flow = plan.flow(n, place);
            run.load(&words);
            run.answers(Call::Lookup { flow }, (0, counts[n][place]));
            run.call(Call::Increment { flow });
        }
        for _ in 0..10 {
            let mut words = words.clone();
            let bucket = walls::damage(&mut run.rng, &plan, &mut words);
            all_calls(run, &plan, &words, bucket);
        }
    }
}

fn limits(run: &mut Run, case: u64) {
    for second in (0..300).chain([1 << 16, 1 << 32, (1 << 32) + 3, 1 << 63, u64::MAX]) {
        for (shape, width) in [(case, second), (second, case), (case + (1 << 32), second)] {
            run.compare(Call::Limits { shape, width }, store::limits(shape, width), archive::limits(shape, width));
        }
    }
}

/// Bytes at every alignment, right before or after an unreadable page.
fn images(run: &mut Run, _: u64) {
    let length = run.rng.index(130);
    let at_end = run.pens.at_end;
    for byte in run.pens.small.bytes(length, at_end) {
        *byte = run.rng.next() as u8;
    }
    let whole = length as u64 / 8;
    let huge = (1 << 61) + run.rng.below(20);
    let odd = run.rng.odd_word();
    for n in (0..whole + 3).chain([1 << 60, (1 << 61) - 1, 1 << 61, huge, 1 << 62, 1 << 63, (7 << 61) + whole, u64::MAX - 1, u64::MAX, odd]) {
        let bytes = run.pens.small.bytes(length, at_end);
        let (ours, theirs) = (store::image(bytes, n), archive::image(bytes, n));
        run.compare(Call::Image { length, n }, ours, theirs);
        if length == 0 {
            run.compare(Call::Image { length, n }, ours, archive::image_of_nothing(n));
        }
    }
}
