//! "Both sides of each edge" of the scope of work, and of the requests: each row is run on both stores, and the numbers and words expected are those of its text.
//!
//! Shape 3, w1 1, b 6, M 100, J 0, spread 0 unless said. A wall of these is four words of header, then A1, I1, A2, A3 and the packed word.

mod busy;
mod spread;

use crate::archive;
use crate::pen::{self, Pen};
use crate::store::{self, Answer};

/// The first word of the bucket, and of full-size bucket 0.
const BUCKET: usize = 4;
const FULL: usize = 9;

/// Flows 0 to 15 stand at places 0, 32, 16 and so on, which are the multiples of 4; flow 15 (001111) stands at place 60 (111100).
const CROWD: [u64; 5] = [1 << 60, 0x0111_1111_1111_1111, 0x0111_1111_1111_1111, 0, 0];
const CROWD_FLAGGED: [u64; 5] = [CROWD[0], CROWD[1], CROWD[2], CROWD[3], 1 << 40];

pub struct Store {
    name: &'static str,
    raise: fn(&mut [u64], u64, u64, u64, u64, u64, u64) -> Answer,
    lookup: fn(&[u64], u64) -> Answer,
    increment: fn(&mut [u64], u64) -> Answer,
    check: fn(&[u64]) -> Answer,
    busy: fn(&[u64], u64, &mut [u64]) -> Answer,
    busy_without_list: fn(&[u64], u64) -> Answer,
    close: fn(&mut [u64]) -> Answer,
    slot: fn(u64, u64, u64) -> Answer,
    limits: fn(u64, u64) -> Answer,
    image: fn(&[u8], u64) -> Answer,
}

const PLAIN: Store = Store {
    name: "store.rs",
    raise: store::raise,
    lookup: store::lookup,
    increment: store::increment,
    check: store::check,
    busy: store::busy,
    busy_without_list: |words, floor| store::busy(words, floor, &mut []),
    close: store::close,
    slot: store::slot,
    limits: store::limits,
    image: store::image,
};

const ARCHIVE: Store = Store {
    name: "the archive",
    raise: archive::raise,
    lookup: archive::lookup,
    increment: archive::increment,
    check: archive::check,
    busy: archive::busy,
    busy_without_list: archive::busy_without_list,
    close: archive::close,
    slot: archive::slot,
    limits: archive::limits,
    image: archive::image,
};

struct Row<'a> {
    store: &'a Store,
    name: &'static str,
    /// Where the lists of busy stand.
    list: &'a mut Pen,
    /// Of the walls that the row raises.
    spread: u64,
    failed: bool,
}

impl Row<'_> {
    fn holds<T: PartialEq + std::fmt::LowerHex>(&mut self, what: &str, found: T, expected: T) {
        if found != expected {
            println!("edges: {} on {}: {what}: {found:x}, expected {expected:x} (hex)", self.name, self.store.name);
            self.failed = true;
        }
    }

    fn answers(&mut self, what: &str, found: Answer, expected: Answer) {
        if found != expected {
            println!("edges: {} on {}: {what}: {found:?}, expected {expected:?}", self.name, self.store.name);
            self.failed = true;
        }
    }

    /// Each word of a wall of the base: total, U and the spread, then A1, I1, A2, A3 and the packed word.
    fn base(&mut self, words: &[u64], total: u64, used: u64, bucket: [u64; 5]) {
        self.holds("total", words[2], total);
        self.holds("U", words[3] >> 16 & 0xffff, used);
        self.holds("the spread", words[3] >> 32, self.spread);
        for (i, name) in ["A1", "I1", "A2", "A3", "the packed word"].into_iter().enumerate() {
            self.holds(name, words[BUCKET + i], bucket[i]);
        }
    }

    fn raise<'w>(&mut self, pen: &'w mut Pen, length: usize, limit: u64, full: u64, expected: u64) -> &'w mut [u64] {
        let words = pen.words(length, true);
        words.fill(0x5555_5555_5555_5555);
        let found = (self.store.raise)(words, 3, 1, 6, limit, full, self.spread);
        self.answers("raise", found, (expected, 0));
        if expected != 0 {
            self.holds("words that a refusal changed", words.iter().filter(|word| **word != 0x5555_5555_5555_5555).count(), 0);
        } else {
            let header = [0x06010300014C5742, limit, 0, full + (self.spread << 32)];
            self.holds("words that differ from a fresh wall's", (0..length).filter(|i| words[*i] != *header.get(*i).unwrap_or(&0)).count(), 0);
            self.answers("check of the fresh wall", (self.store.check)(words), (0, 0));
        }
        words
    }

    /// Increments a flow to this count.
    fn to(&mut self, words: &mut [u64], flow: u64, from: u64, count: u64) {
        for expected in from + 1..=count {
            let found = (self.store.increment)(words, flow);
            self.answers("increment", found, (0, expected));
        }
        let found = (self.store.lookup)(words, flow);
        self.answers("lookup", found, (0, count));
        self.answers("check", (self.store.check)(words), (0, 0));
    }

    /// A refused increment, which changes no word.
    fn refused(&mut self, words: &mut [u64], flow: u64, number: u64) {
        let before = words.to_vec();
        let found = (self.store.increment)(words, flow);
        self.answers("increment", found, (number, 0));
        self.holds("words that a refusal changed", (0..words.len()).filter(|i| words[*i] != before[*i]).count(), 0);
    }

    /// Flows 0 to 14 to 2, flow 15 to 1.
    fn crowd(&mut self, words: &mut [u64], bucket: [u64; 5]) {
        for flow in 0..15 {
            self.to(words, flow, 0, 2);
        }
        self.to(words, 15, 0, 1);
        self.base(words, 31, 0, bucket);
    }
}

type Run = fn(&mut Row, &mut Pen);

const ROWS: &[(&str, Run)] = &[
    ("P1", |row, pen| {
        let words = row.raise(pen, 9, 100, 0, 0);
        row.holds("word 0", words[0], 0x06010300014C5742);
        row.raise(pen, 8, 100, 0, 6);
        row.raise(pen, 10, 100, 0, 6);
    }),
    ("P2", |row, _| {
        for (flow, slot) in [(0, 0), (1, 32), (2, 16), (3, 48), (63, 63)] {
            row.answers("slot", (row.store.slot)(6, 0, flow), (0, slot));
        }
    }),
    ("P3", |row, pen| {
        row.answers("slot of flow 1", (row.store.slot)(9, 0, 1), (0, 256));
        row.answers("slot of flow 8", (row.store.slot)(9, 0, 8), (0, 32));
        // bucket 4, place 0 and bucket 0, place 32, in a wall of 8 buckets
        let words = pen.words(44, true);
        row.answers("raise", (row.store.raise)(words, 3, 1, 9, 100, 0, 0), (0, 0));
        row.to(words, 1, 0, 1);
        row.to(words, 8, 0, 1);
        for i in 4..44 {
            let expected = match i {
                4 => 1 << 32,
                24 => 1,
                _ => 0,
            };
            row.holds("a word of the buckets", words[i], expected);
        }
    }),
    ("P4", |row, pen| {
        let words = row.raise(pen, 9, 100, 0, 0);
        row.to(words, 1, 0, 2);
        row.base(words, 2, 0, [0, 1 << 32, 1, 0, 0]);
    }),
    ("P5", |row, pen| {
        let words = row.raise(pen, 9, 100, 0, 0);
        row.to(words, 1, 0, 2);
        row.to(words, 2, 0, 2);
        row.base(words, 4, 0, [0, 1 << 16 | 1 << 32, 0x11, 0, 0]);
        row.to(words, 1, 2, 5);
        row.base(words, 7, 0, [1 << 32, 1 << 16 | 1 << 32, 0x21, 0, 0]);
    }),
    ("P6", |row, pen| {
        let words = row.raise(pen, 9, 100, 0, 0);
        row.to(words, 1, 0, 32);
        row.to(words, 2, 0, 2);
        row.base(words, 34, 0, [0, 1 << 16 | 1 << 32, 1, 1, 2]);
        row.answers("flow 1", (row.store.lookup)(words, 1), (0, 32));
        row.answers("flow 2", (row.store.lookup)(words, 2), (0, 2));
    }),
    ("P7, J 0", |row, pen| {
        let words = row.raise(pen, 9, 100, 0, 0);
        row.crowd(words, CROWD);
        row.refused(words, 15, 12);
        row.answers("flow 15", (row.store.lookup)(words, 15), (0, 1));
    }),
    ("P7, J 1, and P8", |row, pen| {
        let words = row.raise(pen, 74, 100, 1, 0);
        row.crowd(words, CROWD);
        row.to(words, 15, 1, 2);
        row.base(words, 32, 1, CROWD_FLAGGED);
        for i in 0..65 {
            let expected = match i {
                0 => 1 << 60,
                61 => 2,
                _ => 0,
            };
            row.holds("a word of the full-size bucket", words[FULL + i], expected);
        }
        row.answers("P8: flow 0", (row.store.lookup)(words, 0), (0, 2));
        row.to(words, 0, 2, 3);
        for i in 0..65 {
            let expected = match i {
                0 => 1 << 60 | 1,
                1 => 3,
                61 => 2,
                _ => 0,
            };
            row.holds("a word of the full-size bucket", words[FULL + i], expected);
        }
        row.base(words, 33, 1, CROWD_FLAGGED);
        row.answers("close", (row.store.close)(words), (0, 0));
        row.holds("words left by close", (0..74).filter(|i| words[*i] != [0x06010300014C5742, 100, 0, 1].get(*i).copied().unwrap_or(0)).count(), 0);
    }),
    ("P9", |row, pen| {
        let words = row.raise(pen, 9, 1, 0, 0);
        row.to(words, 5, 0, 1);
        row.refused(words, 5, 10);
        row.refused(words, 6, 10);
    }),
    ("P10", |row, pen| {
        let words = row.raise(pen, 9, 31, 0, 0);
        row.crowd(words, CROWD);
        row.refused(words, 15, 10);
    }),
    ("M 262,143 is accepted, 262,144 gives 4", |row, pen| {
        row.raise(pen, 9, 262_143, 0, 0);
        row.raise(pen, 9, 262_144, 0, 4);
        row.raise(pen, 9, 0, 0, 4);
    }),
    ("J 1 takes 74 words; J 2 gives 5", |row, pen| {
        row.raise(pen, 74, 100, 1, 0);
        row.raise(pen, 73, 100, 1, 6);
        row.raise(pen, 75, 100, 1, 6);
        row.raise(pen, 139, 100, 2, 5);
    }),
    ("flow 63 accepted, 64 gives 8", |row, pen| {
        let words = row.raise(pen, 9, 100, 0, 0);
        row.to(words, 63, 0, 1);
        row.base(words, 1, 0, [1 << 63, 0, 0, 0, 0]);
        row.refused(words, 64, 8);
        row.answers("lookup", (row.store.lookup)(words, 64), (8, 0));
        row.answers("slot", (row.store.slot)(6, 0, 64), (8, 0));
    }),
    ("L is 18, levels 2 and 3 begin at 2 and 32", |row, pen| {
        row.answers("limits", (row.store.limits)(3, 1), (0, 18));
        for (shape, more) in [(3, 17), (4, 18), (5, 18)] {
            for width in 1..=16 {
                row.answers("limits", (row.store.limits)(shape, width), (0, width + more));
            }
            row.answers("limits of the default width", (row.store.limits)(shape, 0), (0, 7 + more));
            row.answers("limits", (row.store.limits)(shape, 17), (2, 0));
        }
        let words = row.raise(pen, 9, 100, 0, 0);
        row.to(words, 0, 0, 1);
        row.base(words, 1, 0, [1, 0, 0, 0, 0]);
        row.to(words, 0, 1, 2);
        row.base(words, 2, 0, [0, 1, 1, 0, 0]);
        row.to(words, 0, 2, 31);
        row.base(words, 31, 0, [1, 1, 15, 0, 0]);
        row.to(words, 0, 31, 32);
        row.base(words, 32, 0, [0, 1, 0, 1, 1]);
    }),
    ("an image is the words, low byte first", |row, pen| {
        let words = row.raise(pen, 9, 100, 0, 0).to_vec();
        let bytes = pen.bytes(72, true);
        bytes.copy_from_slice(&words.iter().flat_map(|word| word.to_le_bytes()).collect::<Vec<u8>>());
        for n in 0..9 {
            row.answers("image", (row.store.image)(bytes, n), (0, words[n as usize]));
        }
        row.answers("image", (row.store.image)(bytes, 9), (6, 0));
        row.answers("image", (row.store.image)(&bytes[1..], 8), (6, 0));
        row.answers("image", (row.store.image)(bytes, 1 << 61), (6, 0));
    }),
];

/// Runs each row on each store.
pub fn hold() -> bool {
    let (mut pen, mut list) = (Pen::new(2), Pen::new(2));
    let mut failed = false;
    for (name, run) in ROWS.iter().chain(busy::ROWS).chain(spread::ROWS) {
        for store in [&PLAIN, &ARCHIVE] {
            pen::crashes_name(format!("edges row `{name}` on {}", store.name));
            let mut row = Row { store, name, list: &mut list, spread: 0, failed: false };
            run(&mut row, &mut pen);
            failed |= row.failed;
        }
    }
    if !failed {
        println!("edges: {} rows hold on both stores", ROWS.len() + busy::ROWS.len() + spread::ROWS.len());
    }
    !failed
}
