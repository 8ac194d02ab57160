//! Both sides of each edge of the spread.

use super::{Row, Run, BUCKET, FULL};

/// What is no spread at b 6: even, or not below 64. Some are one in their low bits.
const NONE: [u64; 14] = [2, 32, 62, 64, 65, 66, 127, (1 << 8) + 1, (1 << 16) + 1, 1 << 32, (1 << 32) + 1, (1 << 63) + 1, u64::MAX - 1, u64::MAX];

/// Flows 0 to 15 at spread 5 stand at places 0, 5 and so on to 60, then 1, 6 and 11.
const CROWD: [u64; 5] = [1 << 11, 0x1084_2108_4210_8421 | 1 << 1 | 1 << 6, 0x0111_1111_1111_1111, 0, 0];
const CROWD_FLAGGED: [u64; 5] = [CROWD[0], CROWD[1], CROWD[2], CROWD[3], 1 << 40];

impl Row<'_> {
    fn slot(&mut self, bits: u64, spread: u64, flow: u64, expected: (u64, u64)) {
        let found = (self.store.slot)(bits, spread, flow);
        self.answers(&format!("slot of flow {flow}, b {bits}, spread {spread}"), found, expected);
    }

    /// Every call on words that are no wall, none of which changes a word.
    fn no_wall(&mut self, words: &mut [u64]) {
        let before = words.to_vec();
        for flow in [0, 1, 63, 64, u64::MAX] {
            self.answers("lookup", (self.store.lookup)(words, flow), (7, 0));
            self.refused(words, flow, 7);
        }
        self.answers("check", (self.store.check)(words), (7, 0));
        self.lists_nothing(words, 7);
        self.answers("close", (self.store.close)(words), (7, 0));
        self.holds("words that a refusal changed", (0..words.len()).filter(|i| words[*i] != before[*i]).count(), 0);
    }
}

pub(super) const ROWS: &[(&str, Run)] = &[
    ("the slot at a spread, and the reversed bits at 0", |row, _| {
        for flow in 0..64 {
            row.slot(6, 1, flow, (0, flow));
            row.slot(6, 63, flow, (0, (64 - flow) % 64));
        }
        for (spread, flow, slot) in [(0, 1, 32), (3, 0, 0), (3, 1, 3), (3, 21, 63), (3, 22, 2), (3, 63, 61), (33, 1, 33), (33, 2, 2), (61, 21, 1)] {
            row.slot(6, spread, flow, (0, slot));
        }
        for (spread, flow, slot) in [(0, 1, 256), (1, 1, 1), (5, 102, 510), (5, 103, 3), (257, 1, 257), (257, 2, 2), (511, 511, 1)] {
            row.slot(9, spread, flow, (0, slot));
        }
        let last = (1 << 22) - 1;
        for (spread, flow, slot) in [(last, 1, last), (last, last, 1), (3, last, last - 2), (65_537, 65_537, 131_073)] {
            row.slot(22, spread, flow, (0, slot));
        }
    }),
    ("spread 63 accepted at b 6, 64 and 65 give 15, and so do even ones", |row, pen| {
        for spread in [0, 1, 3, 31, 33, 61, 63] {
            row.slot(6, spread, 0, (0, 0));
            row.spread = spread;
            row.raise(pen, 9, 100, 0, 0);
            row.raise(pen, 74, 100, 1, 0);
        }
        for spread in NONE {
            row.slot(6, spread, 0, (15, 0));
            row.spread = spread;
            row.raise(pen, 9, 100, 0, 15);
            row.raise(pen, 74, 100, 1, 15);
        }
        for bits in 6..=22 {
            row.slot(bits, (1 << bits) - 1, 1, (0, (1 << bits) - 1));
            for spread in [(1 << bits) - 2, 1 << bits, (1 << bits) + 1] {
                row.slot(bits, spread, 1, (15, 0));
            }
        }
    }),
    ("in slot 3 before 15 and 15 before 8", |row, _| {
        for spread in NONE {
            for flow in [0, 64, u64::MAX] {
                row.slot(5, spread, flow, (3, 0));
                row.slot(23, spread, flow, (3, 0));
                row.slot(6, spread, flow, (15, 0));
            }
        }
        for spread in [0, 1, 63] {
            row.slot(6, spread, 64, (8, 0));
            row.slot(6, spread, u64::MAX, (8, 0));
            row.slot(5, spread, 64, (3, 0));
        }
    }),
    ("in raise 1 to 5 before 15 and 15 before 6", |row, pen| {
        let words = pen.words(9, true);
        words.fill(0x5555_5555_5555_5555);
        for spread in NONE {
            for (shape, width, bits, limit, full, number) in [
                (2, 1, 6, 100, 0, 1),
                (3, 17, 6, 100, 0, 2),
                (3, 1, 5, 100, 0, 3),
                (3, 1, 23, 100, 0, 3),
                (3, 1, 6, 0, 0, 4),
                (3, 1, 6, 100, 2, 5),
                (3, 1, 6, 100, 1, 15),
                (3, 1, 6, 100, 0, 15),
            ] {
                row.answers("raise", (row.store.raise)(words, shape, width, bits, limit, full, spread), (number, 0));
            }
        }
        row.holds("words that a refusal changed", words.iter().filter(|word| **word != 0x5555_5555_5555_5555).count(), 0);
        row.spread = 64;
        row.raise(pen, 8, 100, 0, 15);
        row.raise(pen, 10, 100, 0, 15);
        row.raise(pen, 139, 100, 2, 5);
        row.spread = 63;
        row.raise(pen, 8, 100, 0, 6);
        row.raise(pen, 10, 100, 0, 6);
        row.raise(pen, 139, 100, 2, 5);
    }),
    ("a flow at spread 1 stands at its own number", |row, pen| {
        row.spread = 1;
        let words = row.raise(pen, 9, 100, 0, 0);
        row.to(words, 1, 0, 2);
        row.to(words, 62, 0, 1);
        row.base(words, 3, 0, [1 << 62, 1 << 1, 1, 0, 0]);
        row.lists(words, 1, &[1, 2, 62, 1]);
    }),
    ("flows at spread 3 stand at three times their number; close keeps it", |row, pen| {
        row.spread = 3;
        let words = row.raise(pen, 9, 100, 0, 0);
        row.to(words, 21, 0, 2);
        row.to(words, 1, 0, 5);
        row.to(words, 22, 0, 1);
        row.base(words, 8, 0, [1 << 2 | 1 << 3, 1 << 3 | 1 << 63, 0x12, 0, 0]);
        row.lists(words, 1, &[1, 5, 21, 2, 22, 1]);
        row.lists(words, 2, &[1, 5, 21, 2]);
        row.refused(words, 64, 8);
        row.answers("close", (row.store.close)(words), (0, 0));
        row.base(words, 0, 0, [0; 5]);
        row.holds("word 3", words[3], 3 << 32);
        row.to(words, 1, 0, 1);
        row.base(words, 1, 0, [1 << 3, 0, 0, 0, 0]);
    }),
    ("a raise over a wall of another spread", |row, pen| {
        row.spread = 3;
        let words = row.raise(pen, 9, 100, 0, 0);
        for spread in [0, 1, 0, 63, 0] {
            row.answers("raise", (row.store.raise)(words, 3, 1, 6, 100, 0, spread), (0, 0));
            row.holds("word 3", words[3], spread << 32);
        }
    }),
    ("buckets at spread 65 of b 9", |row, pen| {
        let words = pen.words(44, true);
        row.answers("raise", (row.store.raise)(words, 3, 1, 9, 100, 0, 65), (0, 0));
        // slots 65, 130, 7 and 0: buckets 1, 2, 0 and 0, places 1, 2, 7 and 0
        for (flow, count) in [(1, 1), (2, 1), (71, 1), (0, 1)] {
            row.to(words, flow, 0, count);
        }
        for i in 4..44 {
            let expected = match i {
                4 => 1 << 7 | 1,
                9 => 1 << 1,
                14 => 1 << 2,
                _ => 0,
            };
            row.holds("a word of the buckets", words[i], expected);
        }
        row.lists(words, 1, &[0, 1, 1, 1, 2, 1, 71, 1]);
    }),
    ("an overflow keeps the spread, and so does close", |row, pen| {
        row.spread = 5;
        let words = row.raise(pen, 74, 100, 1, 0);
        row.crowd(words, CROWD);
        row.to(words, 15, 1, 2);
        row.base(words, 32, 1, CROWD_FLAGGED);
        row.holds("word 3", words[3], 5 << 32 | 1 << 16 | 1);
        row.to(words, 13, 2, 3);
        for i in 0..65 {
            let expected = match i {
                0 => 1 << 1 | 1 << 11,
                2 => 3,
                12 => 2,
                _ => 0,
            };
            row.holds("a word of the full-size bucket", words[FULL + i], expected);
        }
        row.lists(words, 3, &[13, 3]);
        row.answers("close", (row.store.close)(words), (0, 0));
        row.holds("words left by close", (0..74).filter(|i| words[*i] != [0x06010300014C5742, 100, 0, 5 << 32 | 1].get(*i).copied().unwrap_or(0)).count(), 0);
    }),
    ("in a header a spread is read, and what is none gives 7", |row, pen| {
        let words = row.raise(pen, 9, 100, 0, 0);
        // slot 1
        row.to(words, 32, 0, 3);
        let sound = words.to_vec();
        for (spread, flow) in [(0, 32), (1, 1), (3, 43), (5, 13), (61, 21), (63, 63)] {
            words.copy_from_slice(&sound);
            words[3] = spread << 32;
            row.spread = spread;
            row.lists(words, 1, &[flow, 3]);
            row.answers("lookup", (row.store.lookup)(words, flow), (0, 3));
            row.to(words, flow, 3, 4);
            row.base(words, 4, 0, [0, 1 << 1, 2, 0, 0]);
        }
        for spread in NONE.into_iter().chain([1 << 31, (1 << 31) + 1]).filter(|spread| spread >> 32 == 0) {
            words.copy_from_slice(&sound);
            words[3] = spread << 32;
            row.no_wall(words);
        }
        // before what else is wrong
        words[BUCKET] = 1;
        words[3] = 2 << 32;
        row.no_wall(words);
    }),
];
