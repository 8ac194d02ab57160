//! The proved archives against store.rs: every call is made on both, and the number, the value and every word left behind are compared.
//!
//!     differential [SEED [PART CASE]]
//!
//! The first disagreement ends the run with status 1, the seed, the case and the words; a crash, with the case, or with the edge's row and the store.
//! Every slice given to the archive touches an unreadable page, and in one case out of eight the wall is read-only while lookup, check and busy run.

mod archive;
mod busy;
mod corners;
mod edges;
mod listed;
mod met;
mod parts;
mod pen;
mod slots;
mod spreads;
mod store;
mod walls;

use busy::Lists;
use met::Met;
use parts::PARTS;
use pen::Pens;
use std::process::exit;
use std::time::Instant;
use store::Answer;
use walls::Rng;

const SEED: u64 = 1;

#[derive(Clone, Copy, Debug)]
pub enum Call {
    Raise { shape: u64, width: u64, bits: u64, limit: u64, full: u64, spread: u64 },
    Lookup { flow: u64 },
    Increment { flow: u64 },
    Check,
    Busy { floor: u64, length: usize },
    Close,
    Slot { bits: u64, spread: u64, flow: u64 },
    Limits { shape: u64, width: u64 },
    Image { length: usize, n: u64 },
}

/// More words than any wall here has.
const WORDS: usize = 1 << 21;

pub struct Run {
    seed: u64,
    part: usize,
    case: u64,
    rng: Rng,
    /// The wall of store.rs, and what it was before the call.
    ours: Vec<u64>,
    before: Vec<u64>,
    pens: Pens,
    lists: Lists,
    sealed: bool,
    met: Met,
}

impl Run {
    fn new(seed: u64) -> Run {
        Run {
            seed,
            part: 0,
            case: 0,
            rng: Rng::new(seed, 0, 0),
            ours: Vec::new(),
            before: Vec::new(),
            pens: Pens::new(WORDS),
            lists: Lists::new(),
            sealed: false,
            met: Met::default(),
        }
    }

    fn start(&mut self, part: usize, case: u64) {
        self.part = part;
        self.case = case;
        self.rng = Rng::new(self.seed, part as u64, case);
        self.pens.at_end = !self.rng.one_in(4);
        self.sealed = self.rng.one_in(8);
        self.lists.start(Rng::new(!self.seed, part as u64, case));
        pen::crashes_name(self.name());
    }

    /// The case, and the words that run it again.
    fn name(&self) -> String {
        let (seed, part, case) = (self.seed, PARTS[self.part].name, self.case);
        format!("seed {seed} part {part} case {case} (again with: {seed} {part} {case})")
    }

    /// Gives these words to both stores.
    fn load(&mut self, words: &[u64]) {
        self.ours.clear();
        self.ours.extend_from_slice(words);
        self.pens.words(words.len()).copy_from_slice(words);
    }

    fn load_random(&mut self, length: usize) {
        let words: Vec<u64> = (0..length).map(|_| self.rng.next()).collect();
        self.load(&words);
    }

    /// Makes a call on the words of both stores and compares.
    fn call(&mut self, call: Call) -> Answer {
        self.before.clear();
        self.before.extend_from_slice(&self.ours);
        let ours = self.call_store(call);
        let theirs = self.call_archive(call);
        let lists_agree = !matches!(call, Call::Busy { .. }) || self.lists.agree();
        if self.ours[..] != *self.pens.words(self.ours.len()) || !lists_agree {
            self.disagree(call, ours, theirs);
        }
        if let Call::Increment { flow } = call {
            self.met.step(&self.before, &self.ours, flow, ours);
        }
        self.met.spreads.on_wall(call, &self.before, &self.ours, ours);
        self.compare(call, ours, theirs)
    }

    fn call_store(&mut self, call: Call) -> Answer {
        let words = &mut self.ours;
        match call {
            Call::Raise { shape, width, bits, limit, full, spread } => store::raise(words, shape, width, bits, limit, full, spread),
            Call::Lookup { flow } => store::lookup(words, flow),
            Call::Increment { flow } => store::increment(words, flow),
            Call::Check => {
                let finding = store::examine(words);
                self.met.finding(words, &finding);
                finding.answer()
            }
            Call::Busy { floor, length } => {
                let list = self.lists.lend(length);
                match store::flow_counts(words) {
                    Ok(counts) => {
                        self.met.busy(words, &counts, floor, length);
                        store::list_flows(&counts, floor, list)
                    }
                    Err(number) => (number, 0),
                }
            }
            Call::Close => store::close(words),
            _ => unreachable!("not a call on words"),
        }
    }

    fn call_archive(&mut self, call: Call) -> Answer {
        let length = self.ours.len();
        let seal = self.sealed && matches!(call, Call::Lookup { .. } | Call::Check | Call::Busy { .. });
        if seal {
            self.pens.pen(length).seal(true);
        }
        let words = self.pens.words(length);
        let answer = match call {
            Call::Raise { shape, width, bits, limit, full, spread } => archive::raise(words, shape, width, bits, limit, full, spread),
            Call::Lookup { flow } => archive::lookup(words, flow),
            Call::Increment { flow } => archive::increment(words, flow),
            Call::Check => archive::check(words),
            Call::Busy { floor, .. } => self.lists.ask_archive(words, floor),
            Call::Close => archive::close(words),
            _ => unreachable!("not a call on words"),
        };
        if seal {
            self.pens.pen(length).seal(false);
        }
        answer
    }

    /// Compares two answers and counts them.
    fn compare(&mut self, call: Call, ours: Answer, theirs: Answer) -> Answer {
        if ours != theirs {
            self.disagree(call, ours, theirs);
        }
        self.met.answer(call, ours);
        ours
    }

    /// For what both stores answer and what the wall was made from says otherwise.
    fn expect(&mut self, call: Call, found: Answer, expected: Answer) {
        if found != expected {
            println!("differential: the two stores agree, and the answer should be {expected:?}");
            self.disagree(call, found, found);
        }
    }

    /// Makes a call whose answer is known.
    fn answers(&mut self, call: Call, expected: Answer) {
        let found = self.call(call);
        self.expect(call, found, expected);
    }

    /// Makes a call whose answer is known, and every word that it leaves.
    fn leaves(&mut self, call: Call, expected: Answer, words: &[u64]) {
        self.answers(call, expected);
        if let Some(i) = (0..words.len()).find(|i| self.ours[*i] != words[*i]) {
            println!("differential: the two stores agree, and word {i} should be {:016x}, not {:016x}", words[i], self.ours[i]);
            self.disagree(call, expected, expected);
        }
    }

    fn disagree(&mut self, call: Call, ours: Answer, theirs: Answer) -> ! {
        println!("differential: disagreement: {}", self.name());
        println!("call {call:?} on {} words", self.ours.len());
        println!("answers: store.rs {ours:?}, the archive {theirs:?}");
        if !matches!(call, Call::Slot { .. } | Call::Limits { .. } | Call::Image { .. }) {
            let words = self.pens.words(self.ours.len()).to_vec();
            match (0..words.len()).find(|i| words[*i] != self.ours[*i]) {
                Some(i) => println!("first differing word {i}: before {:016x}, store.rs {:016x}, the archive {:016x}", self.before[i], self.ours[i], words[i]),
                None => println!("no word differs"),
            }
            if let Call::Busy { .. } = call {
                self.lists.describe();
            }
            println!("{}", met::describe(&self.before));
            for (n, line) in self.before.chunks(6).take(70).enumerate() {
                let line: Vec<String> = line.iter().map(|word| format!("{word:016x}")).collect();
                println!("{:6} {}", 6 * n, line.join(" "));
            }
        }
        exit(1)
    }
}

fn main() {
    let words: Vec<String> = std::env::args().skip(1).collect();
    let number = |word: &String| word.parse::<u64>().unwrap_or_else(|_| usage());
    let seed = words.first().map_or(SEED, number);
    println!("differential: seed {seed}");
    pen::catch_crashes();
    let mut run = Run::new(seed);
    let started = Instant::now();
    match words.len() {
        0 | 1 => {
            if !edges::hold() {
                exit(1);
            }
            for (n, part) in PARTS.iter().enumerate() {
                let (before, since) = (run.met.calls(), Instant::now());
                for case in 0..part.cases {
                    run.start(n, case);
                    (part.run)(&mut run, case);
                }
                println!("{:9} {:6} cases {:8} calls {:6.1} s", part.name, part.cases, run.met.calls() - before, since.elapsed().as_secs_f64());
            }
            run.met.print();
            println!("{:.1} s", started.elapsed().as_secs_f64());
            if !run.met.covers() {
                exit(1);
            }
        }
        3 => {
            let n = PARTS.iter().position(|part| part.name == words[1]).unwrap_or_else(|| usage());
            let case = number(&words[2]);
            run.start(n, case);
            (PARTS[n].run)(&mut run, case);
        }
        _ => usage(),
    }
    println!("differential: {} calls agreed", run.met.calls());
}

fn usage() -> ! {
    println!("usage: differential [SEED [PART CASE]]");
    exit(2)
}
