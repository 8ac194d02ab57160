//! Both sides of each edge of the busy list.

use super::{Row, Run, CROWD};
use crate::store::Answer;

/// What stands in a list before the call.
const LENT: u64 = 0xaaaa_aaaa_aaaa_aaaa;

impl Row<'_> {
    /// Busy over a list of this length: how it answers, and the entries from the list's start. Every other word stays.
    fn busy(&mut self, words: &[u64], floor: u64, length: usize, expected: Answer, entries: &[u64]) {
        let before = words.to_vec();
        let list = self.list.words(length, true);
        list.fill(LENT);
        let found = (self.store.busy)(words, floor, list);
        let wrong = (0..length).filter(|i| list[*i] != *entries.get(*i).unwrap_or(&LENT)).count();
        let what = format!("busy from {floor} over {length} words");
        self.answers(&what, found, expected);
        self.holds(&format!("{what}: words of the list that are wrong"), wrong, 0);
        if length == 0 {
            self.answers(&format!("{what}, NULL"), (self.store.busy_without_list)(words, floor), expected);
        }
        self.holds(&format!("{what}: words of the wall that changed"), (0..words.len()).filter(|i| words[*i] != before[*i]).count(), 0);
    }

    /// Busy that lists these entries, over lists that are too short for them, just long enough, and longer.
    pub(super) fn lists(&mut self, words: &[u64], floor: u64, entries: &[u64]) {
        let needed = entries.len();
        let flows = needed as u64 / 2;
        for length in [needed, needed + 1, needed + 2, 128, 129] {
            self.busy(words, floor, length, (0, flows), entries);
        }
        for length in [0, 1, needed.saturating_sub(2), needed.saturating_sub(1)] {
            if length < needed {
                self.busy(words, floor, length, (14, 0), &[]);
            }
        }
    }

    /// Busy on words that the check refuses with this number, whether a list would do or not.
    pub(super) fn lists_nothing(&mut self, words: &[u64], number: u64) {
        for floor in [0, 1, u64::MAX] {
            for length in [0, 1, 2, 128, 1024] {
                self.busy(words, floor, length, (number, 0), &[]);
            }
        }
    }
}

pub(super) const ROWS: &[(&str, Run)] = &[
    ("busy on a fresh wall", |row, pen| {
        let words = row.raise(pen, 9, 100, 0, 0);
        let all: Vec<u64> = (0..64).flat_map(|flow| [flow, 0]).collect();
        row.lists(words, 0, &all);
        for floor in [1, 100, 1 << 63, u64::MAX] {
            row.lists(words, floor, &[]);
        }
    }),
    ("busy from a flow's count, and from one more", |row, pen| {
        let words = row.raise(pen, 9, 100, 0, 0);
        for (flow, count) in [(63, 1), (2, 2), (1, 32), (3, 31), (4, 1)] {
            row.to(words, flow, 0, count);
        }
        row.lists(words, 1, &[1, 32, 2, 2, 3, 31, 4, 1, 63, 1]);
        row.lists(words, 2, &[1, 32, 2, 2, 3, 31]);
        row.lists(words, 3, &[1, 32, 3, 31]);
        row.lists(words, 31, &[1, 32, 3, 31]);
        row.lists(words, 32, &[1, 32]);
        row.lists(words, 33, &[]);
    }),
    ("busy in rising flow number, over 8 buckets", |row, pen| {
        let words = pen.words(44, true);
        row.answers("raise", (row.store.raise)(words, 3, 1, 9, 100, 0, 0), (0, 0));
        // slots 511, 256, 32 and 0
        for (flow, count) in [(511, 3), (1, 2), (8, 4), (0, 1)] {
            row.to(words, flow, 0, count);
        }
        row.lists(words, 1, &[0, 1, 1, 2, 8, 4, 511, 3]);
        row.lists(words, 3, &[8, 4, 511, 3]);
        row.lists(words, 4, &[8, 4]);
        row.lists(words, 5, &[]);
    }),
    ("busy of moved places and of others in their bucket", |row, pen| {
        let words = row.raise(pen, 74, 100, 1, 0);
        row.crowd(words, CROWD);
        let mut entries: Vec<u64> = (0..15).flat_map(|flow| [flow, 2]).collect();
        row.lists(words, 2, &entries);
        row.to(words, 15, 1, 2);
        entries.extend([15, 2]);
        row.lists(words, 2, &entries);
        row.to(words, 0, 2, 3);
        entries[1] = 3;
        row.lists(words, 2, &entries);
        row.lists(words, 3, &[0, 3]);
        row.lists(words, 4, &[]);
    }),
    ("busy gives 7, 9 and 13 as the check does, 9 without the bucket, before 14", |row, pen| {
        let words = pen.words(44, true);
        row.answers("raise", (row.store.raise)(words, 3, 1, 9, 100, 0, 0), (0, 0));
        row.to(words, 1, 0, 2);
        for (at, word, checked) in [(0, 0, (7, 0)), (1, 1, (7, 0)), (2, 1, (9, 4)), (2, 3, (13, 0)), (4, 1, (13, 0)), (43, 1 << 41, (9, 7))] {
            let sound = std::mem::replace(&mut words[at], word);
            row.answers("check", (row.store.check)(words), checked);
            row.lists_nothing(words, checked.0);
            words[at] = sound;
        }
        for length in [0, 3, 43] {
            row.lists_nothing(&words[..length], 7);
        }
        row.lists(words, 1, &[1, 2]);
    }),
];
