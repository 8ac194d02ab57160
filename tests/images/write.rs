//! Writes the golden images and their answers: the words from lists of counts, laid out as docs/WALL.md says, the answers by the independent store.
//!
//!     write FOLDER

#[allow(dead_code)]
#[path = "../differential/store.rs"]
mod store;
#[allow(dead_code)]
#[path = "../differential/walls.rs"]
mod walls;

use std::fmt::Write;
use std::fs;
use std::path::PathBuf;
use store::PLACES;
use walls::{Plan, Wall};

struct Golden {
    name: &'static str,
    about: String,
    words: Vec<u64>,
    /// The flows that are looked up and incremented.
    flows: Vec<u64>,
    lists: Vec<List>,
}

/// A flow and its count.
type Counts<'a> = &'a [(u64, u64)];

/// A busy list: its floor, and the words lent for it.
type List = (u64, usize);

/// Bucket and place of a flow.
fn stands(plan: &Plan, flow: u64) -> (usize, usize) {
    let slot = store::slot(plan.bits, plan.spread, flow).1 as usize;
    (slot / PLACES, slot % PLACES)
}

/// A sound wall of the buckets' own counts, and of the moved ones by full-size number.
fn golden(name: &'static str, plan: &Plan, limit: u64, own: Counts, moved: &[Counts], flows: &[u64], lists: &[List]) -> Golden {
    let mut wall = Wall { plan: plan.clone(), limit, own: vec![vec![0; PLACES]; plan.buckets()], moved: Vec::new() };
    for (flow, count) in own {
        let (bucket, place) = stands(plan, *flow);
        wall.own[bucket][place] = *count;
    }
    for counts in moved {
        let mut full = vec![None; PLACES];
        for (flow, count) in *counts {
            full[stands(plan, *flow).1] = Some(*count);
        }
        wall.moved.push((stands(plan, counts[0].0).0, full));
    }
    let mut about = format!("shape {}, w1 {}, b {}, M {limit}, J {}", plan.shape, plan.width, plan.bits, plan.full);
    if plan.spread != 0 {
        write!(about, ", spread {}", plan.spread).unwrap();
    }
    let list = |counts: Counts| counts.iter().map(|(flow, count)| format!("{flow}:{count}")).collect::<Vec<_>>().join(" ");
    write!(about, "; own counts {}", if own.is_empty() { "0".to_string() } else { list(own) }).unwrap();
    for (number, counts) in moved.iter().enumerate() {
        write!(about, "; moved in full-size bucket {number} {}", list(counts)).unwrap();
    }
    Golden { name, about, words: wall.words(), flows: flows.to_vec(), lists: lists.to_vec() }
}

/// The image of this name with words changed, or cut off. One busy list is enough: it is refused as the check is.
fn damaged(all: &[Golden], of: &str, name: &'static str, about: &str, change: impl Fn(&mut Vec<u64>)) -> Golden {
    let sound = all.iter().find(|golden| golden.name == of).unwrap();
    let mut words = sound.words.clone();
    change(&mut words);
    Golden { name, about: format!("{of}, but {about}"), words, flows: sound.flows.clone(), lists: sound.lists[..1].to_vec() }
}

/// Sixteen flows of one bucket: fifteen have come to 2 and the last to 1.
fn brimful(first: u64, step: u64) -> Vec<(u64, u64)> {
    (0..16).map(|i| (first + step * i, if i < 15 { 2 } else { 1 })).collect()
}

/// The rows of docs/WALL.md's worked example.
fn worked_example() -> Vec<Golden> {
    let (plain, full) = (Plan::new(3, 1, 6, 0), Plan::new(3, 1, 6, 1));
    let brimful = brimful(0, 1);
    vec![
        golden("raised", &plain, 100, &[], &[], &[0, 63, 64], &[(1, 0), (0, 127)]),
        golden("risen", &plain, 100, &[(1, 5), (2, 2)], &[], &[1, 2, 3], &[(1, 4), (1, 3), (5, 3), (6, 4), (u64::MAX, 0), (0, 128)]),
        golden("carrying", &plain, 100, &[(1, 31)], &[], &[1], &[(31, 2), (32, 0)]),
        golden("third", &plain, 100, &[(1, 32), (2, 2)], &[], &[1, 2], &[(2, 4), (32, 2)]),
        golden("brimful", &plain, 100, &brimful, &[], &[15, 0], &[(1, 32), (3, 0)]),
        golden("brimful-full", &full, 100, &brimful, &[], &[15, 0], &[(2, 30)]),
        golden("overflowed", &full, 100, &brimful, &[&[(15, 2)]], &[15, 0, 63], &[(2, 32)]),
        golden("moved", &full, 100, &brimful, &[&[(0, 3), (15, 2)]], &[15, 0, 1], &[(3, 2), (2, 31)]),
    ]
}

/// The other shapes, entries that cross words, counts at the edges of every level, two flagged buckets, a total at its limit.
fn other_shapes() -> Vec<Golden> {
    let wide = [(0, 8191), (1, 8192), (2, 131_071), (3, 131_072), (62, 1), (63, 8190)];
    // the even flows stand in bucket 0, which has no 26th entry of level 2, the odd ones in bucket 1, which has no third of level 4
    let mut own: Vec<(u64, u64)> = (0..25).map(|i| (2 * i, 128 + i)).collect();
    own.extend([(50, 127), (1, 8192), (3, 100_000), (5, 8191), (7, 600), (9, 511), (11, 127), (127, 1)]);
    let moved: [Counts; 2] = [&[(5, 8192)], &[(50, 130), (0, 200)]];
    let five = [(0, 4096), (1, 4095), (2, 256), (3, 255), (4, 32), (5, 31), (6, 8), (42, 7), (63, 1)];
    let total = five.iter().map(|(_, count)| count).sum();
    let both = [brimful(0, 2), brimful(1, 2)].concat();
    vec![
        golden("two", &Plan::new(3, 1, 7, 2), 100, &both, &[&[(30, 2)], &[(31, 2)]], &[30, 31, 0, 1], &[(2, 64)]),
        golden("wide", &Plan::new(3, 13, 6, 0), (1 << 30) - 1, &wide, &[], &[0, 1, 2, 3, 61, 63], &[(1, 12), (8191, 8), (131_072, 2)]),
        golden("four", &Plan::new(4, 7, 7, 2), 1_000_000, &own, &moved, &[5, 50, 0, 2, 3, 7, 9, 125], &[(150, 18), (8192, 6), (130, 59)]),
        golden("five", &Plan::new(5, 3, 6, 0), 10_000, &five, &[], &[0, 1, 3, 5, 42, 62], &[(1, 18), (32, 10), (256, 5)]),
        golden("at-limit", &Plan::new(5, 3, 6, 0), total, &five, &[], &[0, 1, 62], &[(4096, 2)]),
    ]
}

/// Odd spreads: the least, one by which an increment carries, one by which a bucket overflows, and the largest.
fn spreads() -> Vec<Golden> {
    let (plain, full) = (Plan::new(3, 1, 6, 0), Plan::new(3, 1, 6, 1).spread(5));
    // flow 12 stands at place 60, the other multiples of 4 at the other places that are one
    let brimful: Vec<(u64, u64)> = (0..16).map(|i| (4 * i, if i == 3 { 1 } else { 2 })).collect();
    let grown = [(0, 4096), (1, 4095), (2, 256), (3, 255), (4, 32), (65, 300), (66, 31), (100, 8), (126, 7), (127, 1)];
    vec![
        golden("spread-one", &plain.clone().spread(1), 100, &[(1, 5), (2, 2)], &[], &[1, 2, 32], &[(1, 4), (1, 3)]),
        golden("spread", &plain.spread(37), 100, &[(1, 31), (2, 2)], &[], &[1, 2, 3, 63, 64], &[(1, 4), (0, 127)]),
        golden("spread-brimful", &full, 100, &brimful, &[], &[12, 0, 1], &[(1, 32), (2, 29)]),
        golden("spread-overflowed", &full, 100, &brimful, &[&[(12, 2)]], &[12, 0, 63], &[(2, 32)]),
        golden("spread-grown", &Plan::new(5, 3, 7, 1).spread(127), 20_000, &grown, &[], &[0, 1, 2, 3, 4, 64, 66, 126], &[(1, 20), (255, 10)]),
    ]
}

fn damages(all: &[Golden]) -> Vec<Golden> {
    vec![
        damaged(all, "risen", "cut", "its last word is missing: 7", |words| words.truncate(8)),
        damaged(all, "risen", "even-spread", "the spread is 2: 7", |words| words[3] |= 2 << 32),
        damaged(all, "risen", "spread-at-n", "the spread is 2^b: 7", |words| words[3] |= 64 << 32),
        damaged(all, "risen", "spread-above-n", "the spread is 2^b + 1: 7", |words| words[3] |= 65 << 32),
        damaged(all, "third", "marks-stayed", "flow 1's mark stayed where its entry was: 9", |words| words[8] = 1),
        damaged(all, "risen", "above-used", "level 2 has a bit above the entries in use: 9", |words| words[6] |= 1 << 63),
        damaged(all, "risen", "below-counts", "the total is below the bucket's counts: 9", |words| words[2] = 6),
        damaged(all, "overflowed", "not-greater", "a moved count is the bucket's own: 9", |words| words[9 + 1 + 60] = 1),
        damaged(all, "overflowed", "unmoved-not-0", "a place that is not moved holds a count: 9", |words| words[9 + 1 + 63] = 1),
        damaged(all, "two", "number-at-u", "U is 1, and the number 1 is not below it: 9 in bucket 1", |words| words[3] -= 1 << 16),
        damaged(all, "two", "held-twice", "both buckets hold the number 0: 13", |words| words[13] -= 1 << 48),
        damaged(all, "risen", "above-counts", "the total is above the counts: 13", |words| words[2] = 8),
        damaged(all, "brimful-full", "from-u", "a full-size bucket from U on is not 0: 13", |words| words[73] = 1),
    ]
}

/// One line a call: image, call, argument, number, value, and each word that has changed, as index=hex.
fn answer(text: &mut String, golden: &Golden, call: &str, argument: Option<u64>, made: impl Fn(&mut [u64]) -> store::Answer) {
    let mut words = golden.words.clone();
    let (number, value) = made(&mut words);
    let argument = argument.map_or("-".to_string(), |argument| argument.to_string());
    write!(text, "{} {call} {argument} {number} {value}", golden.name).unwrap();
    for (at, word) in words.iter().enumerate() {
        if *word != golden.words[at] {
            write!(text, " {at}={word:x}").unwrap();
        }
    }
    text.push('\n');
}

/// The same of a busy list, whose argument is its floor and the words lent, and each entry as flow:count.
fn busy(text: &mut String, golden: &Golden, (floor, length): List) {
    let mut list = vec![u64::MAX; length];
    let (number, value) = store::busy(&golden.words, floor, &mut list);
    let (entries, rest) = list.split_at(2 * value as usize);
    assert!(rest.iter().all(|word| *word == u64::MAX));
    write!(text, "{} busy {floor},{length} {number} {value}", golden.name).unwrap();
    for entry in entries.chunks(2) {
        write!(text, " {}:{}", entry[0], entry[1]).unwrap();
    }
    text.push('\n');
}

fn answers(golden: &Golden) -> String {
    let mut text = format!("\n# {}: {}\n", golden.name, golden.about);
    answer(&mut text, golden, "check", None, |words| store::check(words));
    for flow in &golden.flows {
        answer(&mut text, golden, "lookup", Some(*flow), |words| store::lookup(words, *flow));
        answer(&mut text, golden, "increment", Some(*flow), |words| store::increment(words, *flow));
    }
    for list in &golden.lists {
        busy(&mut text, golden, *list);
    }
    answer(&mut text, golden, "close", None, |words| store::close(words));
    text
}

fn main() {
    let folder = PathBuf::from(std::env::args().nth(1).expect("usage: write FOLDER"));
    let mut all = worked_example();
    all.extend(other_shapes());
    all.extend(spreads());
    all.extend(damages(&all));
    let mut text = "# Calls on the images, each on the image as it stands in its file: image, call, argument, number, value, and every word that\n\
         # has changed, as index=hex. Counts are written flow:count. The argument of busy is the floor and how many words are lent for\n\
         # the list; its entries come last, and every other word of the list stays as it was.\n"
        .to_string();
    for golden in &all {
        let bytes: Vec<u8> = golden.words.iter().flat_map(|word| word.to_le_bytes()).collect();
        fs::write(folder.join(format!("{}.image", golden.name)), bytes).unwrap();
        text += &answers(golden);
    }
    fs::write(folder.join("answers"), text).unwrap();
}
