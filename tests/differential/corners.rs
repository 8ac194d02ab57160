//! Corners of the largest sizes: the last full-size number, the last of 4,096 full-size buckets to be taken, the last bucket at every b. No wall
//! here is random, and each ends right before the unreadable page. Each answer is stated, and so is every word after an increment.

use crate::met;
use crate::store::PLACES;
use crate::walls::{Plan, Wall};
use crate::{Call, Run};

/// The most full-size buckets, and the last number of so many.
const MOST: usize = 4096;
const LAST: usize = MOST - 1;

/// The last place: its full-size count is the last word of a full-size bucket.
const END: usize = PLACES - 1;

/// The spreads that cases take in turn, the largest among them.
fn spread(turn: u64, bits: u64) -> u64 {
    [0, (1 << bits) - 1, 0x9e3779b1 % (1 << bits)][turn as usize % 3]
}

/// The bucket that holds a full-size number. Numbers and buckets rise in different orders.
fn holder(plan: &Plan, number: usize) -> usize {
    (1237 * number + 1) % plan.buckets()
}

/// Counts of a bucket about to overflow: level 2 has all its entries in use, and the last two places stand right before that level.
fn brimful(plan: &Plan) -> Vec<u64> {
    let mut counts = vec![0; PLACES];
    counts[..plan.levels.0[1].0].fill(plan.start(2));
    counts[END - 1..].fill(plan.start(2) - 1);
    counts
}

/// A sound wall with this U: each number was taken when the last place of its bucket entered level 2. The bucket for the next number is about to overflow.
fn crowded(plan: &Plan, used: usize) -> Vec<u64> {
    let mut own = vec![vec![0; PLACES]; plan.buckets()];
    for number in 0..=used {
        own[holder(plan, number)] = brimful(plan);
    }
    let mut full = vec![None; PLACES];
    full[END] = Some(plan.start(2));
    let moved = (0..used).map(|number| (holder(plan, number), full.clone())).collect();
    Wall { plan: plan.clone(), limit: plan.top(), own, moved }.words()
}

fn with(words: &[u64], at: usize, word: u64) -> Vec<u64> {
    let mut words = words.to_vec();
    words[at] = word;
    words
}

fn with_used(words: &[u64], used: usize) -> Vec<u64> {
    with(words, 3, words[3] & !(0xffff << 16) | (used as u64) << 16)
}

/// The flag and a number in a bucket's packed word.
fn with_number(plan: &Plan, words: &[u64], bucket: usize, number: usize) -> Vec<u64> {
    let at = plan.bucket_at(bucket) + plan.packed();
    with(words, at, words[at] & ((1 << 40) - 1) | 1 << 40 | (number as u64) << 48)
}

/// What an increment leaves that brings a place to this count in the full-size bucket of this number.
fn with_moved(plan: &Plan, words: &[u64], number: usize, place: usize, count: u64) -> Vec<u64> {
    let full = plan.full_at(number);
    let mut words = with(words, full + 1 + place, count);
    words[full] |= 1 << place;
    words[2] += 1;
    words
}

/// What an increment leaves that makes a brimful bucket overflow at this place.
fn overflowed(plan: &Plan, words: &[u64], bucket: usize, place: usize) -> Vec<u64> {
    let number = met::used(words) as usize;
    let flagged = with_used(&with_number(plan, words, bucket, number), number + 1);
    with_moved(plan, &flagged, number, place, plan.start(2))
}

/// Words in which this is the lowest unsound bucket.
fn unsound_at(run: &mut Run, plan: &Plan, words: &[u64], bucket: usize) {
    run.load(words);
    run.answers(Call::Check, (9, bucket as u64));
    for place in [0, END] {
        let flow = plan.flow(bucket, place);
        run.answers(Call::Lookup { flow }, (9, 0));
        run.leaves(Call::Increment { flow }, (9, 0), words);
    }
}

/// Words in which every bucket is sound and the wall is not.
fn unsound(run: &mut Run, words: &[u64]) {
    run.load(words);
    run.answers(Call::Check, (13, 0));
}

/// Increments in a bucket of `crowded` that has this number: at the moved place, and at others that have yet to move.
fn counts_on(run: &mut Run, plan: &Plan, words: &[u64], bucket: usize, number: usize) {
    for (place, count) in [(END, plan.start(2)), (END - 1, plan.start(2) - 1), (END - 2, 0), (0, plan.start(2))] {
        let flow = plan.flow(bucket, place);
        run.load(words);
        run.answers(Call::Lookup { flow }, (0, count));
        run.leaves(Call::Increment { flow }, (0, count + 1), &with_moved(plan, words, number, place, count + 1));
        run.answers(Call::Lookup { flow }, (0, count + 1));
    }
}

/// Shapes 3, 4, 5; w1 1, 7, 16.
pub const SHAPES_AND_WIDTHS: u64 = 9;

fn largest(case: u64, bits: u64) -> Plan {
    Plan::new(3 + case % 3, [1, 7, 16][case as usize / 3], bits, MOST).spread(spread(case + case / 3, bits))
}

/// b 18 and J 4,096, every bucket flagged.
pub fn numbers(run: &mut Run, case: u64) {
    run.pens.at_end = true;
    let plan = largest(case, 18);
    let sound = crowded(&plan, MOST);
    run.load(&sound);
    run.answers(Call::Check, (0, 0));
    if plan.width == 1 {
        lists_flagged(run, &plan);
    }
    counts_on(run, &plan, &sound, holder(&plan, LAST), LAST);
    run.answers(Call::Check, (0, 0));
    held_twice(run, &plan, &sound);
    not_below_used(run, &plan, &sound);
    last_full(run, &plan, &sound);
    run.load(&sound);
    run.leaves(Call::Close, (0, 0), &fresh(&plan));
}

/// Busy on `crowded` with every bucket flagged: level 2 is used at the first places and at the last one, which is moved. The lists are one word too short
/// and one word longer than needed.
fn lists_flagged(run: &mut Run, plan: &Plan) {
    let listed = (0..plan.levels.0[1].0).chain([END]);
    let mut flows: Vec<u64> = listed.flat_map(|place| (0..plan.buckets()).map(move |n| plan.flow(n, place))).collect();
    flows.sort();
    let entries: Vec<u64> = flows.into_iter().flat_map(|flow| [flow, plan.start(2)]).collect();
    run.busy(plan.start(2) + 1, 0, Ok(Vec::new()));
    run.busy(plan.start(2), entries.len() - 1, Ok(entries.clone()));
    run.busy(plan.start(2), entries.len() + 1, Ok(entries));
}

/// One number held twice, another by none.
fn held_twice(run: &mut Run, plan: &Plan, sound: &[u64]) {
    for (twice, none) in [(LAST, LAST - 1), (LAST, 0), (LAST - 1, LAST), (0, LAST)] {
        let words = with_number(plan, sound, holder(plan, none), twice);
        unsound(run, &words);
        counts_on(run, plan, &words, holder(plan, none), twice);
        counts_on(run, plan, &words, holder(plan, twice), twice);
    }
}

/// The last number where U is no more than it, and greater numbers with its low bits or with those of 0.
fn not_below_used(run: &mut Run, plan: &Plan, sound: &[u64]) {
    let bucket = holder(plan, LAST);
    unsound_at(run, plan, &with_used(sound, LAST), bucket);
    for number in [MOST, MOST + LAST, 0x8000 + LAST, 0xf000, 0xffff] {
        unsound_at(run, plan, &with_number(plan, sound, bucket, number), bucket);
    }
}

/// The last full-size bucket: its flags, unmoved places, and the last word of the wall, moved and not.
fn last_full(run: &mut Run, plan: &Plan, sound: &[u64]) {
    let full = plan.full_at(LAST);
    let bucket = holder(plan, LAST);
    for (word, damaged) in [(0, 0), (0, 1 << END | 1), (1, 1), (32, 1 << 63), (1 + END, plan.start(2) - 1), (1 + END, 0)] {
        unsound_at(run, plan, &with(sound, full + word, damaged), bucket);
    }
    let two_moved = with_moved(plan, sound, LAST, 0, plan.start(2) + 1);
    unsound_at(run, plan, &with(&two_moved, full, 1), bucket);
}

/// U at 4,095 of J 4,096, and at 4,096 with one bucket more to overflow.
pub fn brink(run: &mut Run, case: u64) {
    run.pens.at_end = true;
    last_taken(run, &largest(case, 18));
    none_left(run, &largest(case, 19));
}

/// `crowded`, which the check accepts: its words, the bucket about to overflow, and the flow of its last place.
fn about_to_overflow(run: &mut Run, plan: &Plan, used: usize) -> (Vec<u64>, usize, u64) {
    let sound = crowded(plan, used);
    let bucket = holder(plan, used);
    run.load(&sound);
    run.answers(Call::Check, (0, 0));
    (sound, bucket, plan.flow(bucket, END))
}

/// The overflow that takes the last number, over an empty full-size bucket and over one that is not. Then U one too high.
fn last_taken(run: &mut Run, plan: &Plan) {
    let (sound, bucket, flow) = about_to_overflow(run, plan, LAST);
    run.answers(Call::Lookup { flow }, (0, plan.start(2) - 1));
    run.leaves(Call::Increment { flow }, (0, plan.start(2)), &crowded(plan, MOST));
    run.answers(Call::Check, (0, 0));
    let after = overflowed(plan, &sound, bucket, END - 1);
    for word in [0, 1, 32, 1 + END] {
        unsound(run, &with(&sound, plan.full_at(LAST) + word, 1));
        run.leaves(Call::Increment { flow: plan.flow(bucket, END - 1) }, (0, plan.start(2)), &after);
    }
    let too_high = with_used(&sound, MOST);
    unsound(run, &too_high);
    run.leaves(Call::Increment { flow }, (12, 0), &too_high);
}

/// One bucket more that must overflow. Then the flag in it, with the last number, which another bucket holds too, and with the number that is one too many.
fn none_left(run: &mut Run, plan: &Plan) {
    let (sound, bucket, flow) = about_to_overflow(run, plan, MOST);
    run.leaves(Call::Increment { flow }, (12, 0), &sound);
    // place 0 has room in its levels: one more in its entry of A1
    let mut grown = with(&sound, 2, sound[2] + 1);
    grown[plan.bucket_at(bucket)] += 1;
    run.leaves(Call::Increment { flow: plan.flow(bucket, 0) }, (0, plan.start(2) + 1), &grown);
    run.leaves(Call::Increment { flow }, (12, 0), &grown);
    run.answers(Call::Check, (0, 0));
    let twice = with(&with_number(plan, &sound, bucket, LAST), 2, sound[2] + 1);
    unsound(run, &twice);
    counts_on(run, plan, &twice, bucket, LAST);
    unsound_at(run, plan, &with_number(plan, &sound, bucket, MOST), bucket);
}

/// Shapes 3, 4, 5; b 6 to 22.
pub const SHAPES_AND_BITS: u64 = 3 * 17;

/// From this b on a check takes long in store.rs. With a full-size bucket only the overflow is tried there; of the words every third is damaged,
/// others at each b.
const MANY_BITS: u64 = 17;

/// b of the most flows.
const MOST_BITS: u64 = 22;

/// The last bucket, without full-size buckets and with one.
pub fn ends(run: &mut Run, case: u64) {
    run.pens.at_end = true;
    let bits = 6 + case / 3;
    for full in [0, 1] {
        let plan = Plan::new(3 + case % 3, 1, bits, full).spread(spread(case + case / 3, bits));
        last_overflow(run, &plan);
        if full == 0 || plan.bits < MANY_BITS {
            last_flow(run, &plan);
            last_words(run, &plan);
        }
    }
}

/// A wall whose last bucket has these counts, the others none.
fn last_alone(plan: &Plan, counts: &[u64]) -> Vec<u64> {
    let mut words = vec![0; plan.length()];
    words[..4].copy_from_slice(&[plan.first_word(), plan.top(), counts.iter().sum(), plan.fourth_word(0)]);
    let at = plan.bucket_at(plan.buckets() - 1);
    words[at..at + plan.stride()].copy_from_slice(&plan.encode(counts, false, 0));
    words
}

fn fresh(plan: &Plan) -> Vec<u64> {
    last_alone(plan, &[0; PLACES])
}

/// The flow of the last slot.
fn last(plan: &Plan) -> u64 {
    plan.flow(plan.buckets() - 1, END)
}

/// A wall with one count, the last slot's.
fn last_once(plan: &Plan, count: u64) -> Vec<u64> {
    let mut counts = vec![0; PLACES];
    counts[END] = count;
    last_alone(plan, &counts)
}

/// The last slot's flow once from a fresh wall, which sets the last bit of A1. Then the total one too low and one too high.
fn last_flow(run: &mut Run, plan: &Plan) {
    let once = last_once(plan, 1);
    run.load_random(plan.length());
    run.answers(plan.raise(plan.top()), (0, 0));
    run.leaves(Call::Increment { flow: last(plan) }, (0, 1), &once);
    run.answers(Call::Check, (0, 0));
    lists_last(run, plan);
    unsound_at(run, plan, &with(&once, 2, 0), plan.buckets() - 1);
    unsound(run, &with(&once, 2, 2));
}

/// Busy on a wall with one count, the last slot's: its flow alone, and all flows. With many bits only the most flows, at 0 and at the largest spread.
fn lists_last(run: &mut Run, plan: &Plan) {
    let (flows, last) = (plan.flows(), last(plan));
    if plan.bits < MANY_BITS || plan.bits == MOST_BITS && [0, flows - 1].contains(&plan.spread) {
        let all: Vec<u64> = (0..flows).flat_map(|flow| [flow, (flow == last) as u64]).collect();
        run.busy(0, all.len(), Ok(all));
    }
    if plan.bits < MANY_BITS {
        run.busy(1, 2, Ok(vec![last, 1]));
    }
}

/// The last bucket about to overflow: the last slot's flow is refused, or takes the last word of the wall. Then that word too low.
fn last_overflow(run: &mut Run, plan: &Plan) {
    let (bucket, flow) = (plan.buckets() - 1, last(plan));
    let fresh = fresh(plan);
    let sound = last_alone(plan, &brimful(plan));
    run.load(&sound);
    if plan.full == 0 {
        run.leaves(Call::Increment { flow }, (12, 0), &sound);
        run.leaves(Call::Close, (0, 0), &fresh);
        return;
    }
    let after = overflowed(plan, &sound, bucket, END);
    run.leaves(Call::Increment { flow }, (0, plan.start(2)), &after);
    run.answers(Call::Check, (0, 0));
    run.leaves(Call::Close, (0, 0), &fresh);
    unsound_at(run, plan, &with(&after, plan.length() - 1, plan.start(2) - 1), bucket);
    // over a last word that is not 0
    unsound(run, &with(&sound, plan.length() - 1, 1));
    run.leaves(Call::Increment { flow: plan.flow(bucket, END - 1) }, (0, plan.start(2)), &overflowed(plan, &sound, bucket, END - 1));
}

/// One bit of each word of the last bucket, whose last place uses every level.
fn last_words(run: &mut Run, plan: &Plan) {
    let p = plan.levels.count();
    let bucket = plan.buckets() - 1;
    let deep = last_once(plan, plan.start(p));
    run.load(&deep);
    run.answers(Call::Check, (0, 0));
    run.answers(Call::Lookup { flow: last(plan) }, (0, plan.start(p)));
    // a count over the total, a mark without an entry, a bit above each level's entries, a spare bit, a number without the flag
    let mut damages = vec![(0, 0), (plan.i1(), 0)];
    damages.extend((2..=p).map(|j| (plan.a(j), 63)));
    damages.extend([(plan.packed(), 41), (plan.packed(), 63)]);
    let (first, step) = if plan.bits < MANY_BITS { (0, 1) } else { (plan.bits as usize % 3, 3) };
    for (word, bit) in damages.into_iter().skip(first).step_by(step) {
        let at = plan.bucket_at(bucket) + word;
        unsound_at(run, plan, &with(&deep, at, deep[at] ^ 1 << bit), bucket);
    }
}
