//! The busy calls: the lists that the two stores are lent, and on the parts' walls the floors, the lengths and what is known of the answers.

use crate::archive;
use crate::pen::Pens;
use crate::store::{self, Answer};
use crate::walls::Rng;
use crate::{Call, Run};

/// A word more than all flows of the largest walls take.
const MOST: usize = (2 << 22) + 1;

/// On a wall of so many words a call takes long.
const MANY: usize = 1 << 12;

pub struct Lists {
    /// Of its own, so that the other calls of a case are the same without those of busy.
    pub rng: Rng,
    pens: Pens,
    /// What both stores are lent, and what store.rs leaves of it.
    lent: Vec<u64>,
    ours: Vec<u64>,
    null: bool,
}

impl Lists {
    pub fn new() -> Lists {
        Lists { rng: Rng::new(0, 0, 0), pens: Pens::new(MOST), lent: Vec::new(), ours: Vec::new(), null: false }
    }

    pub fn start(&mut self, rng: Rng) {
        self.rng = rng;
        self.pens.at_end = !self.rng.one_in(4);
    }

    /// Lends both stores a list of random words, and gives that of store.rs.
    pub fn lend(&mut self, length: usize) -> &mut [u64] {
        let rng = &mut self.rng;
        self.null = length == 0 && rng.one_in(2);
        self.lent.clear();
        self.lent.extend((0..length).map(|_| rng.next()));
        self.ours.clone_from(&self.lent);
        self.pens.words(length).copy_from_slice(&self.lent);
        &mut self.ours
    }

    pub fn ask_archive(&mut self, words: &[u64], floor: u64) -> Answer {
        if self.null {
            archive::busy_without_list(words, floor)
        } else {
            archive::busy(words, floor, self.pens.words(self.ours.len()))
        }
    }

    pub fn agree(&mut self) -> bool {
        self.ours[..] == *self.pens.words(self.ours.len())
    }

    /// The lists of a disagreement.
    pub fn describe(&mut self) {
        let theirs = self.pens.words(self.ours.len());
        match (0..theirs.len()).find(|i| theirs[*i] != self.ours[*i]) {
            Some(i) => {
                println!("first differing word of the list {i}: lent {:016x}, store.rs {:016x}, the archive {:016x}", self.lent[i], self.ours[i], theirs[i])
            }
            None => println!("no word of the list differs"),
        }
    }

    /// The first word that is not as these entries and the words lent leave it, and what it should be.
    fn wrong(&self, entries: &[u64]) -> Option<(usize, u64)> {
        let expected = |i: usize| *entries.get(i).unwrap_or(&self.lent[i]);
        (0..self.ours.len()).find(|i| self.ours[*i] != expected(*i)).map(|i| (i, expected(i)))
    }
}

impl Run {
    /// Makes a busy call of which the entries to be listed are known, or the number with which the check refuses the words.
    pub fn busy(&mut self, floor: u64, length: usize, entries: Result<Vec<u64>, u64>) {
        let call = Call::Busy { floor, length };
        let (number, entries) = match entries {
            Ok(entries) if entries.len() <= length => (0, entries),
            Ok(_) => (14, Vec::new()),
            Err(number) => (number, Vec::new()),
        };
        let answer = (number, entries.len() as u64 / 2);
        self.answers(call, answer);
        if let Some((i, word)) = self.lists.wrong(&entries) {
            println!("differential: the two stores agree, and word {i} of the list should be {word:016x}");
            self.disagree(call, answer, answer);
        }
    }
}

/// Flow and count of each flow from the floor up.
fn entries(counts: &[u64], floor: u64) -> Vec<u64> {
    (0..).zip(counts).filter(|(_, count)| **count >= floor).flat_map(|(flow, count)| [flow, *count]).collect()
}

/// A floor at some flow's count, or right above it, or elsewhere.
fn floor(rng: &mut Rng, counts: &[u64]) -> u64 {
    let from = rng.index(counts.len());
    let some = *counts[from..].iter().chain(counts).find(|count| **count != 0).unwrap_or(&0);
    let most = *counts.iter().max().unwrap();
    match rng.below(9) {
        0 => 0,
        1 => 1,
        2 => some,
        3 => some + 1,
        4 => most,
        5 => most + 1,
        6 => rng.between(0, most),
        7 => rng.odd_word(),
        _ => u64::MAX,
    }
}

/// A length on either side of the words needed, or elsewhere, for a wall of so many flows.
fn length(rng: &mut Rng, needed: usize, flows: usize) -> usize {
    match rng.below(8) {
        0 => 0,
        1 => needed.saturating_sub(2),
        2 => needed.saturating_sub(1),
        3 => needed,
        4 => needed + 1,
        5 => 2 * flows,
        _ => rng.index(2 * flows + 2),
    }
}

/// Busy calls on a wall that has these counts, by flow.
pub fn known(run: &mut Run, counts: &[u64], calls: usize) {
    for _ in 0..calls {
        let rng = &mut run.lists.rng;
        let floor = floor(rng, counts);
        let entries = entries(counts, floor);
        let length = length(rng, entries.len(), counts.len());
        run.busy(floor, length, Ok(entries));
    }
}

/// Busy calls on words of which the check's answer is known: what it refuses is refused likewise, whatever the list.
pub fn as_checked(run: &mut Run, (number, _): Answer) {
    let many = run.ours.len() > MANY;
    if many && !run.lists.rng.one_in(2) {
        return;
    }
    if number == 0 {
        let counts = store::flow_counts(&run.ours).unwrap();
        known(run, &counts, if many { 1 } else { 3 });
    } else {
        let rng = &mut run.lists.rng;
        let odd = rng.odd_word();
        let floor = rng.pick(&[0, 1, odd]);
        let length = rng.pick(&[0, 1, 2, 3, 128, 1024, 1025]);
        run.busy(floor, length, Err(number));
    }
}
