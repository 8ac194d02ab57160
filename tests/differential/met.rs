//! What a run met: a reader sees that it reaches what it is to test, and a run that does not fails.

use crate::listed::Listed;
use crate::spreads::Spreads;
use crate::store::{self, Answer, Finding, PLACES};
use crate::walls::Plan;
use crate::Call;
use std::collections::BTreeMap;

const CALLS: [&str; 9] = ["raise", "lookup", "increment", "check", "busy", "close", "slot", "limits", "image"];

/// 0 to 15.
const NUMBERS: usize = 16;

/// The numbers that the documents let each call give. 11 is left out: the bucket's counts add up to at most the total, so 10 or 9 comes before it.
const GIVEN: [&[usize]; 9] =
    [&[0, 1, 2, 3, 4, 5, 6, 15], &[0, 7, 8, 9], &[0, 7, 8, 9, 10, 12], &[0, 7, 9, 13], &[0, 7, 9, 13, 14], &[0, 7], &[0, 3, 8, 15], &[0, 1, 2], &[0, 6]];

const BAD_HEADER: [&str; 14] =
    ["fewer than 4 words", "mark", "version", "shape", "width 0", "width", "b", "M", "J", "m even", "m over 2^b", "length", "total over M", "U over J"];

/// What is unsound about a bucket, and about a wall of sound buckets.
const UNSOUND: [&str; 16] = [
    "more ones than entries",
    "a mark above the used entries",
    "bits above the used entries",
    "a last part of 0",
    "spare packed bits",
    "a number without the flag",
    "a number not below U",
    "the flag and no place moved",
    "an unmoved place not 0",
    "a moved count not above the bucket's own",
    "counts over the total",
    "counts below the total",
    "all counts over the total",
    "a number held twice",
    "a number held by none",
    "a full-size bucket from U up not 0",
];

/// What an increment does; the first three are told apart by level.
const STEPS: [&str; 6] = ["enters level", "overflows at level", "12 at level", "stays in its levels", "moves a place", "raises a moved count"];

/// What is met where J is 4,096: the first four in a check, the others in an increment.
const LARGEST: [&str; 6] = [
    "number 4,095 held twice",
    "number 4,095 held by none",
    "number 4,095 not below U",
    "full-size bucket 4,095 not 0 and U 4,095",
    "an overflow takes number 4,095",
    "12 where 4,096 are in use",
];

#[derive(Default)]
pub struct Met {
    numbers: [[u64; NUMBERS]; 9],
    headers: BTreeMap<&'static str, u64>,
    /// By reason and shape: walls checked for which it holds, and those for which nothing else does.
    unsound: BTreeMap<(&'static str, u64), [u64; 2]>,
    /// By shape from 3, step and level.
    steps: [[[u64; 6]; 6]; 3],
    /// By shape from 3.
    largest: [[u64; 6]; 3],
    /// Walls checked whose lowest unsound bucket is the last, by shape from 3 and b from 6.
    last: [[u64; 17]; 3],
    listed: Listed,
    pub spreads: Spreads,
}

/// The plan of a wall whose header is good.
pub fn plan_of(words: &[u64]) -> Plan {
    let byte = |n: u32| words[0] >> (8 * n) & 0xff;
    Plan::new(byte(5), byte(6), byte(7), words[3] as usize & 0xffff).spread(words[3] >> 32)
}

/// U
pub fn used(words: &[u64]) -> u64 {
    words[3] >> 16 & 0xffff
}

/// The header of a wall for a reader.
pub fn describe(words: &[u64]) -> String {
    if words.len() < 4 {
        return "no header".to_string();
    }
    let byte = |n: u32| words[0] >> (8 * n) & 0xff;
    let (j, u, m) = (words[3] & 0xffff, used(words), words[3] >> 32);
    format!("before the call: shape {}, w1 {}, b {}, M {}, total {}, J {j}, U {u}, m {m}; words:", byte(5), byte(6), byte(7), words[1], words[2])
}

impl Met {
    pub fn calls(&self) -> u64 {
        self.numbers.iter().flatten().sum()
    }

    pub fn answer(&mut self, call: Call, answer: Answer) {
        let index = match call {
            Call::Raise { .. } => 0,
            Call::Lookup { .. } => 1,
            Call::Increment { .. } => 2,
            Call::Check => 3,
            Call::Busy { .. } => 4,
            Call::Close => 5,
            Call::Slot { .. } => 6,
            Call::Limits { .. } => 7,
            Call::Image { .. } => 8,
        };
        self.numbers[index][answer.0 as usize] += 1;
    }

    pub fn finding(&mut self, words: &[u64], finding: &Finding) {
        let reasons = match finding {
            Finding::Sound(_) => return,
            Finding::BadHeader(reason) => {
                *self.headers.entry(reason).or_default() += 1;
                return;
            }
            Finding::Bucket(_, reasons) | Finding::Wall(reasons) => reasons,
        };
        self.corners(words, finding);
        let shape = words[0] >> 40 & 0xff;
        let alone = reasons.iter().all(|reason| *reason == reasons[0]);
        for (n, reason) in reasons.iter().enumerate() {
            if !reasons[..n].contains(reason) {
                let entry = self.unsound.entry((reason, shape)).or_default();
                entry[0] += 1;
                entry[1] += alone as u64;
            }
        }
    }

    /// An unsound wall whose header is good.
    fn corners(&mut self, words: &[u64], finding: &Finding) {
        let plan = plan_of(words);
        let shape = plan.shape as usize - 3;
        if matches!(finding, Finding::Bucket(n, _) if *n == plan.buckets() - 1) {
            self.last[shape][plan.bits as usize - 6] += 1;
        }
        if plan.full != 4096 {
            return;
        }
        let used = used(words);
        let holders: Vec<usize> = (0..plan.buckets()).filter(|n| words[plan.bucket_at(*n) + plan.packed()] >> 40 == 4095 << 8 | 1).collect();
        let rest = words[plan.full_at(4095)..].iter().any(|word| *word != 0);
        let met = match finding {
            Finding::Bucket(n, _) => [false, false, used == 4095 && holders.contains(n), false],
            _ => [holders.len() > 1, used == 4096 && holders.is_empty(), false, used == 4095 && rest],
        };
        self.largest[shape].iter_mut().zip(met).for_each(|(count, met)| *count += met as u64);
    }

    /// A busy call on a wall that the check accepts, which has these counts by flow.
    pub fn busy(&mut self, words: &[u64], counts: &[u64], floor: u64, length: usize) {
        self.listed.busy(&plan_of(words), words, counts, floor, length);
    }

    /// An increment and its wall before and after.
    pub fn step(&mut self, before: &[u64], after: &[u64], flow: u64, (number, value): Answer) {
        if number != 0 && number != 12 {
            return;
        }
        let plan = plan_of(before);
        let slot = store::slot(plan.bits, plan.spread, flow).1 as usize;
        let packed = plan.bucket_at(slot / PLACES) + plan.packed();
        let flagged = |words: &[u64]| words[packed] >> 40 & 1 == 1;
        let count = if number == 0 { value } else { store::lookup(before, flow).1 + 1 };
        let level = (2..=plan.levels.count()).find(|d| plan.start(*d) == count);
        let step = if number == 12 {
            2
        } else if flagged(before) {
            let full = plan.full_at((before[packed] >> 48) as usize);
            if before[full] == after[full] {
                5
            } else {
                4
            }
        } else if flagged(after) {
            1
        } else if level.is_some() {
            0
        } else {
            3
        };
        let level = if step < 3 { level.unwrap_or(0) } else { 0 };
        let shape = plan.shape as usize - 3;
        self.steps[shape][step][level] += 1;
        self.largest[shape][4] += (step == 1 && used(after) == 4096) as u64;
        self.largest[shape][5] += (step == 2 && used(before) == 4096) as u64;
    }

    pub fn print(&self) {
        println!("\nanswers by number:");
        print!("{:9} {:>9}", "", "calls");
        (0..NUMBERS).for_each(|number| print!(" {number:>8}"));
        println!();
        for (call, numbers) in CALLS.iter().zip(&self.numbers) {
            print!("{call:9} {:>9}", numbers.iter().sum::<u64>());
            numbers.iter().for_each(|count| if *count == 0 { print!(" {:>8}", "-") } else { print!(" {count:>8}") });
            println!();
        }
        print!("{:9} {:>9}", "all", self.calls());
        (0..NUMBERS).for_each(|number| print!(" {:>8}", self.numbers.iter().map(|numbers| numbers[number]).sum::<u64>()));
        println!("\n\nincrements, by shape 3, 4, 5:");
        for (step, name) in STEPS.iter().enumerate() {
            for level in 0..6 {
                let counts: Vec<u64> = self.steps.iter().map(|steps| steps[step][level]).collect();
                if counts.iter().any(|count| *count != 0) {
                    let name = if step < 3 { format!("{name} {level}") } else { name.to_string() };
                    println!("{name:42} {:>8} {:>8} {:>8}", counts[0], counts[1], counts[2]);
                }
            }
        }
        self.listed.print();
        self.spreads.print();
        self.print_corners();
        println!("\nwalls checked that are unsound for this reason, and for it alone, by shape 3, 4, 5:");
        for reason in UNSOUND {
            print!("{reason:42}");
            for shape in 3..=5 {
                let [met, alone] = self.unsound.get(&(reason, shape)).copied().unwrap_or_default();
                print!(" {met:>8} {alone:>8}");
            }
            println!();
        }
        println!("\nwalls checked whose header is bad, by the first reason:");
        for reason in BAD_HEADER {
            println!("{reason:42} {:>8}", self.headers.get(reason).copied().unwrap_or(0));
        }
        println!();
    }

    fn print_corners(&self) {
        println!("\nwhere J is 4,096, by shape 3, 4, 5:");
        for (n, name) in LARGEST.iter().enumerate() {
            println!("{name:42} {:>8} {:>8} {:>8}", self.largest[0][n], self.largest[1][n], self.largest[2][n]);
        }
        println!("\nwalls checked whose lowest unsound bucket is the last, by b from 6 to 22:");
        for (n, counts) in self.last.iter().enumerate() {
            print!("shape {}", n + 3);
            counts.iter().for_each(|count| print!(" {count:>6}"));
            println!();
        }
    }

    /// What no wall of this shape met.
    fn missing(&self, shape: u64) -> Vec<String> {
        let n = shape as usize - 3;
        let mut missing = Vec::new();
        for level in 2..=shape as usize {
            for step in 0..3 {
                if self.steps[n][step][level] == 0 {
                    missing.push(format!("no increment {} {level}", STEPS[step]));
                }
            }
        }
        for step in 3..6 {
            if self.steps[n][step][0] == 0 {
                missing.push(format!("no increment {}", STEPS[step]));
            }
        }
        for reason in UNSOUND {
            if self.unsound.get(&(reason, shape)).map_or(true, |counts| counts[1] == 0) {
                missing.push(format!("no wall is unsound alone for: {reason}"));
            }
        }
        let largest = (0..6).filter(|i| self.largest[n][*i] == 0).map(|i| format!("never where J is 4,096: {}", LARGEST[i]));
        missing.extend(largest);
        let last = (6..=22).filter(|bits| self.last[n][bits - 6] == 0).map(|bits| format!("no last bucket is unsound at b {bits}"));
        missing.extend(last);
        missing.extend(self.listed.missing(n).map(|name| format!("no busy call: {name}")));
        missing
    }

    /// Each number that a call may give was given by it and no other, each reason to be unsound was met alone in each shape, and so on.
    pub fn covers(&self) -> bool {
        let mut missing = Vec::new();
        for (call, numbers) in self.numbers.iter().enumerate() {
            for (number, count) in numbers.iter().enumerate() {
                let given = GIVEN[call].contains(&number);
                if given != (*count != 0) {
                    missing.push(format!("{} gave {number} {count} times", CALLS[call]));
                }
            }
        }
        for shape in 3..=5 {
            missing.extend(self.missing(shape).iter().map(|line| format!("shape {shape}: {line}")));
        }
        for reason in BAD_HEADER {
            if !self.headers.contains_key(reason) {
                missing.push(format!("no header is bad for: {reason}"));
            }
        }
        missing.extend(self.spreads.missing());
        for line in &missing {
            println!("differential: not covered: {line}");
        }
        missing.is_empty()
    }
}
