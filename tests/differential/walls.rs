//! Walls to call the two stores on: sound ones made from lists of counts, and damaged ones.

use crate::store::{self, Levels, PLACES};

/// xorshift64*, so that a case is made again from the seed, its part and its number.
pub struct Rng(u64);

impl Rng {
    pub fn new(seed: u64, part: u64, case: u64) -> Rng {
        let mut state = seed;
        for word in [part, case] {
            state = (state ^ word).wrapping_add(0x9e3779b97f4a7c15);
            state = (state ^ state >> 30).wrapping_mul(0xbf58476d1ce4e5b9);
            state = (state ^ state >> 27).wrapping_mul(0x94d049bb133111eb);
            state ^= state >> 31;
        }
        Rng(state | 1)
    }

    pub fn next(&mut self) -> u64 {
        self.0 ^= self.0 >> 12;
        self.0 ^= self.0 << 25;
        self.0 ^= self.0 >> 27;
        self.0.wrapping_mul(0x2545f4914f6cdd1d)
    }

    pub fn below(&mut self, n: u64) -> u64 {
        ((self.next() as u128 * n as u128) >> 64) as u64
    }

    pub fn index(&mut self, n: usize) -> usize {
        self.below(n as u64) as usize
    }

    /// Low to high, both included.
    pub fn between(&mut self, low: u64, high: u64) -> u64 {
        low + self.below(high - low + 1)
    }

    pub fn one_in(&mut self, n: u64) -> bool {
        self.below(n) == 0
    }

    pub fn pick<T: Copy>(&mut self, of: &[T]) -> T {
        of[self.index(of.len())]
    }

    pub fn shuffle<T>(&mut self, list: &mut [T]) {
        for i in (1..list.len()).rev() {
            list.swap(i, self.index(i + 1));
        }
    }

    /// A word likely to stand on some edge.
    pub fn odd_word(&mut self) -> u64 {
        match self.below(8) {
            0 => 0,
            1 => u64::MAX,
            2 => 1 << 63,
            3 => 1 << self.below(64),
            4 => (1 << self.below(64)) - 1,
            5 => self.below(4),
            6 => u64::MAX - self.below(4),
            _ => self.next(),
        }
    }
}

/// A spread for this b, none for every other wall.
pub fn spread(rng: &mut Rng, bits: u64) -> u64 {
    let flows = 1 << bits;
    match rng.below(10) {
        0 => 1,
        1 => flows - 1,
        2 => rng.pick(&[3, 5, flows / 2 - 1, flows / 2 + 1, flows - 3]),
        3 | 4 => 2 * rng.below(flows / 2) + 1,
        _ => 0,
    }
}

/// No spread for this b: even, or not below 2^b; some are one in their low 32 bits.
pub fn no_spread(rng: &mut Rng, bits: u64) -> u64 {
    let flows = 1 << bits;
    match rng.below(5) {
        0 => rng.pick(&[2, flows / 2, flows - 2, flows, flows + 1, 2 * flows - 1, 2 * flows + 1]),
        1 => 2 * rng.between(1, flows / 2 - 1),
        2 => spread(rng, bits) + (1 << rng.between(bits + 1, 63)),
        3 => spread(rng, bits) + (rng.between(1, u32::MAX as u64) << 32),
        _ => rng.next() | 1 << 62,
    }
}

/// The spread that leads from a slot to its flow: of 0 it is 0, of m the number whose product with m is 1. m is that in its low 3 bits, and each step doubles
/// the bits that are right.
pub fn back(bits: u64, spread: u64) -> u64 {
    let right: u64 = (0..3).fold(spread, |back, _| back.wrapping_mul(2u64.wrapping_sub(back.wrapping_mul(spread))));
    right % (1 << bits)
}

/// The parameters of a wall, and where its words stand.
#[derive(Clone)]
pub struct Plan {
    pub shape: u64,
    pub width: u64,
    pub bits: u64,
    pub full: usize,
    pub levels: Levels,
    /// m
    pub spread: u64,
}

impl Plan {
    /// Shape 3 to 5, width 1 to 16. The slots are the reversed flows.
    pub fn new(shape: u64, width: u64, bits: u64, full: usize) -> Plan {
        Plan { shape, width, bits, full, levels: Levels::new(shape, width).unwrap(), spread: 0 }
    }

    pub fn spread(self, spread: u64) -> Plan {
        Plan { spread, ..self }
    }

    pub fn buckets(&self) -> usize {
        1 << (self.bits - 6)
    }

    pub fn flows(&self) -> u64 {
        1 << self.bits
    }

    pub fn stride(&self) -> usize {
        self.levels.bucket_words()
    }

    pub fn length(&self) -> usize {
        4 + self.buckets() * self.stride() + 65 * self.full
    }

    pub fn bucket_at(&self, bucket: usize) -> usize {
        4 + bucket * self.stride()
    }

    pub fn full_at(&self, number: usize) -> usize {
        self.bucket_at(self.buckets()) + 65 * number
    }

    /// The words of a bucket, counted from its first: I1, A_j for j from 2, and the packed word.
    pub fn i1(&self) -> usize {
        self.width as usize
    }

    pub fn a(&self, j: usize) -> usize {
        self.width as usize + j - 1
    }

    pub fn packed(&self) -> usize {
        self.width as usize + self.levels.count()
    }

    /// 2^(L_d), the least count that uses level d from 2 up; d may be p + 1.
    pub fn start(&self, d: usize) -> u64 {
        1 << self.levels.0[..d - 1].iter().map(|(_, width)| width).sum::<u32>()
    }

    pub fn top(&self) -> u64 {
        self.levels.top()
    }

    pub fn flow(&self, bucket: usize, place: usize) -> u64 {
        store::slot(self.bits, back(self.bits, self.spread), (bucket * PLACES + place) as u64).1
    }

    pub fn fourth_word(&self, used: usize) -> u64 {
        self.full as u64 | (used as u64) << 16 | self.spread << 32
    }

    pub fn first_word(&self) -> u64 {
        0x4c5742 | 1 << 24 | self.shape << 40 | self.width << 48 | self.bits << 56
    }

    /// The words of a bucket of these 64 counts: level d holds the counts of at least 2^(L_d), in rising order of place. Entries for which the word has no room, and
    /// marks for which the level has none, are left out.
    pub fn encode(&self, counts: &[u64], flag: bool, number: u64) -> Vec<u64> {
        let mut words = vec![0; self.stride()];
        let mut members: Vec<u64> = counts.to_vec();
        let mut weight = 0;
        let mut marks_from = 0;
        for j in 1..=self.levels.count() {
            let (k, width) = self.levels.0[j - 1];
            let next = if j < self.levels.count() { self.start(j + 1) } else { u64::MAX };
            for (a, count) in members.iter().enumerate() {
                let part = (count >> weight) & ((1 << width) - 1);
                let from = a * width as usize;
                if j == 1 {
                    words[from / 64] |= part << (from % 64);
                    if from % 64 + width as usize > 64 {
                        words[from / 64 + 1] |= part >> (64 - from % 64);
                    }
                    words[self.i1()] |= ((*count >= next) as u64) << a;
                } else {
                    if from + width as usize <= 64 {
                        words[self.a(j)] |= part << from;
                    }
                    if a < k {
                        words[self.packed()] |= ((*count >= next) as u64) << (marks_from + a);
                    }
                }
            }
            if j >= 2 {
                marks_from += k;
            }
            weight += width;
            members.retain(|count| *count >= next);
        }
        words[self.packed()] |= (flag as u64) << 40 | number << 48;
        words
    }

    /// More than k_d of the 64 counts are at least 2^(L_d), for some d.
    pub fn crowded(&self, counts: &[u64]) -> bool {
        (2..=self.levels.count()).any(|d| counts.iter().filter(|count| **count >= self.start(d)).count() > self.levels.0[d - 1].0)
    }
}

/// A sound wall as lists of counts.
#[derive(Clone)]
pub struct Wall {
    pub plan: Plan,
    pub limit: u64,
    /// Each bucket's own counts.
    pub own: Vec<Vec<u64>>,
    /// Bucket, moved places and their counts, by full-size number.
    pub moved: Vec<(usize, Vec<Option<u64>>)>,
}

impl Wall {
    /// A random sound wall. Many of its counts stand right before a level's start or at it, and many levels have all or all but one of their entries in use.
    pub fn random(rng: &mut Rng, plan: &Plan) -> Wall {
        let mut left = plan.top();
        let mut own = Vec::new();
        for n in 0..plan.buckets() {
            let mut share = if rng.one_in(3) { left } else { left / (plan.buckets() - n) as u64 };
            let counts = random_counts(rng, plan, &mut share);
            left -= counts.iter().sum::<u64>();
            own.push(counts);
        }
        let mut flagged: Vec<usize> = (0..plan.buckets()).collect();
        rng.shuffle(&mut flagged);
        let used = rng.index(plan.full + 1);
        let used = if rng.one_in(3) { plan.full } else { used };
        let mut moved = Vec::new();
        for bucket in flagged.into_iter().take(used) {
            let mut places: Vec<usize> = (0..PLACES).collect();
            rng.shuffle(&mut places);
            let number = rng.pick(&[1, 1, 2, 3, 20, 63, 64]);
            let mut full = vec![None; PLACES];
            for place in places.into_iter().take(number) {
                if left == 0 {
                    break;
                }
                let more = match rng.below(4) {
                    0 => rng.between(1, left),
                    1 => left.min(rng.between(1, 100)),
                    _ => 1,
                };
                left -= more;
                full[place] = Some(own[bucket][place] + more);
            }
            if full.iter().any(Option::is_some) {
                moved.push((bucket, full));
            }
        }
        let total = plan.top() - left;
        let limit = match rng.below(4) {
            0 => total.max(1),
            1 => plan.top().min(total + 1 + rng.below(20)),
            2 => rng.between(total.max(1), plan.top()),
            _ => plan.top(),
        };
        Wall { plan: plan.clone(), limit, own, moved }
    }

    pub fn counts(&self) -> Vec<Vec<u64>> {
        let mut counts = self.own.clone();
        for (bucket, full) in &self.moved {
            for place in 0..PLACES {
                counts[*bucket][place] = full[place].unwrap_or(counts[*bucket][place]);
            }
        }
        counts
    }

    /// The same wall without a count.
    pub fn emptied(&self) -> Wall {
        Wall { own: vec![vec![0; PLACES]; self.plan.buckets()], moved: Vec::new(), ..self.clone() }
    }

    pub fn words(&self) -> Vec<u64> {
        let plan = &self.plan;
        let total: u64 = self.counts().iter().flatten().sum();
        let mut words = vec![plan.first_word(), self.limit, total, plan.fourth_word(self.moved.len())];
        let mut numbers = vec![None; plan.buckets()];
        for (number, (bucket, _)) in self.moved.iter().enumerate() {
            numbers[*bucket] = Some(number as u64);
        }
        for (own, number) in self.own.iter().zip(numbers) {
            words.extend(plan.encode(own, number.is_some(), number.unwrap_or(0)));
        }
        for (_, full) in &self.moved {
            words.push((0..PLACES).map(|place| (full[place].is_some() as u64) << place).sum());
            words.extend(full.iter().map(|count| count.unwrap_or(0)));
        }
        words.resize(plan.length(), 0);
        words
    }
}

/// 64 counts that are not crowded and add up to at most `left`, which is lowered by their sum.
fn random_counts(rng: &mut Rng, plan: &Plan, left: &mut u64) -> Vec<u64> {
    let p = plan.levels.count();
    let mut counts = vec![0; PLACES];
    if rng.one_in(12) {
        return counts;
    }
    let mut places: Vec<usize> = (0..PLACES).collect();
    rng.shuffle(&mut places);
    // members[d - 1] places use level d
    let mut members = vec![rng.pick(&[64, 64, 20, 3])];
    for d in 2..=p {
        let most = plan.levels.0[d - 1].0.min(members[d - 2]);
        members.push(match rng.below(5) {
            0 => 0,
            1 => most,
            2 => most.saturating_sub(1),
            _ => rng.index(most + 1),
        });
    }
    for (i, place) in places.into_iter().enumerate() {
        let depth = match (1..=p).rev().find(|d| i < members[d - 1]) {
            Some(depth) => depth,
            None => break,
        };
        let low = if depth == 1 { 0 } else { plan.start(depth) };
        let high = plan.start(depth + 1) - 1;
        let wanted = match rng.below(8) {
            0 => low,
            1 => (low + 1).min(high),
            2 | 3 => high,
            4 => high - 1,
            5 => rng.between(low, high),
            // all ones below its last part: the next increment carries into that part
            6 => low + plan.start(depth) - 1,
            _ => low + rng.below((high - low + 1).min(20)),
        };
        let count = [wanted.clamp(low, high), low, 0].into_iter().find(|count| *count <= *left).unwrap();
        counts[place] = count;
        *left -= count;
    }
    counts
}

/// Makes room for every count (total and M are 2^L - 1), or gives the wall the exact total of its counts, if that is within 2^L - 1.
pub fn retotal(rng: &mut Rng, plan: &Plan, words: &mut [u64], exact: bool) {
    if words.len() != plan.length() {
        return;
    }
    words[1] = plan.top();
    words[2] = plan.top();
    if exact {
        let sum: u128 = (0..plan.buckets()).flat_map(|n| store::counts(words, n).unwrap_or_default()).map(|count| count as u128).sum();
        if sum <= plan.top() as u128 {
            words[2] = sum as u64;
            if rng.one_in(2) {
                words[1] = words[2].max(1);
            }
        }
    }
}

/// Damages a wall of this plan in one way. Gives a bucket that the damage is likely to be seen in.
pub fn damage(rng: &mut Rng, plan: &Plan, words: &mut Vec<u64>) -> usize {
    let n = rng.index(plan.buckets());
    if words.len() != plan.length() {
        return n;
    }
    let at = plan.bucket_at(n);
    let p = plan.levels.count();
    let marks: usize = plan.levels.0[1..p - 1].iter().map(|(k, _)| k).sum();
    let full = if plan.full > 0 { Some(plan.full_at(rng.index(plan.full))) } else { None };
    match rng.below(27) {
        // one bit of each field
        0 => words[rng.index(4)] ^= 1 << rng.below(64),
        1 => words[at + rng.index(plan.width as usize)] ^= 1 << rng.below(64),
        2 => words[at + plan.i1()] ^= 1 << rng.below(64),
        3 | 4 => words[at + plan.a(2 + rng.index(p - 1))] ^= 1 << rng.below(64),
        5 => words[at + plan.packed()] ^= 1 << rng.index(marks),
        6 => words[at + plan.packed()] ^= 1 << rng.pick(&[marks as u64, 38, 39, 41, 42, 47]),
        7 => words[at + plan.packed()] ^= 1 << 40,
        8 => words[at + plan.packed()] ^= 1 << rng.between(48, 63),
        9 => {
            if let Some(full) = full {
                words[full] ^= 1 << rng.below(64);
            }
        }
        10 => {
            if let Some(full) = full {
                words[full + 1 + rng.index(PLACES)] ^= 1 << rng.below(64);
            }
        }
        // words exchanged, copied, replaced
        11 => {
            let (one, other) = (rng.index(words.len()), rng.index(words.len()));
            words.swap(one, other);
        }
        12 => {
            let (one, other) = (at + rng.index(plan.stride()), at + rng.index(plan.stride()));
            words.swap(one, other);
        }
        13 => {
            let (from, to) = (rng.index(words.len()), rng.index(words.len()));
            words[to] = words[from];
        }
        14 => {
            let i = rng.index(words.len());
            words[i] = rng.odd_word();
        }
        // whole buckets exchanged: the wall stays sound
        15 => {
            let other = plan.bucket_at(rng.index(plan.buckets()));
            for i in 0..plan.stride() {
                words.swap(at + i, other + i);
            }
        }
        // two buckets share a full-size number
        16 => {
            let other = plan.bucket_at(rng.index(plan.buckets()));
            let shared = words[other + plan.packed()] >> 40;
            words[at + plan.packed()] = words[at + plan.packed()] & ((1 << 40) - 1) | shared << 40;
        }
        17 => {
            let number = rng.below(plan.full as u64 + 1);
            words[at + plan.packed()] = words[at + plan.packed()] & ((1 << 40) - 1) | 1 << 40 | number << 48;
        }
        // the header's numbers
        18 => words[2] = rng.pick(&[words[2].wrapping_add(1), words[2].wrapping_sub(1), words[1], words[1].wrapping_add(1), 0, u64::MAX]),
        19 => words[1] = rng.pick(&[words[2], words[2].wrapping_sub(1), 0, 1, plan.top(), plan.top() + 1, u64::MAX]),
        20 => {
            let used = rng.pick(&[words[3] >> 16, words[3] >> 16 ^ 1, (words[3] >> 16) + 1, plan.full as u64, plan.full as u64 + 1, 0xffff, 0]);
            words[3] = words[3] & !(0xffff << 16) | (used & 0xffff) << 16;
        }
        // J with or without the words for it
        21 => {
            let j = rng.pick(&[plan.full as u64 + 1, (plan.full as u64).saturating_sub(1), plan.buckets() as u64, plan.buckets() as u64 + 1, 0xffff]);
            words[3] = words[3] & !0xffff | j;
            if j < 64 && rng.one_in(2) {
                words.resize(plan.full_at(j as usize), 0);
            }
        }
        // another m, good or not
        25 => {
            let m = if rng.one_in(2) { spread(rng, plan.bits) } else { no_spread(rng, plan.bits) };
            words[3] = words[3] & 0xffff_ffff | m << 32;
        }
        // another shape and width of the same length
        22 => {
            let shape = rng.between(3, 5);
            let width = plan.width + plan.shape - shape.min(plan.width + plan.shape);
            words[0] = words[0] & !(0xffff << 40) | shape << 40 | width << 48;
        }
        // moved counts whose sum wraps
        23 => {
            if let Some(full) = full {
                let (one, other) = (rng.index(PLACES), rng.index(PLACES));
                words[full] |= 1 << one | 1 << other;
                if rng.one_in(2) {
                    words[full + 1 + one] = 1 << 63;
                    words[full + 1 + other] = 1 << 63;
                } else {
                    words[full + 1 + one] = u64::MAX;
                    words[full + 1 + other] = words[full + 1 + other].wrapping_add(1);
                }
            }
        }
        // what stands from U up
        24 => {
            let used = (words[3] >> 16) as usize & 0xffff;
            if used < plan.full {
                let from = plan.full_at(used);
                match rng.below(3) {
                    0 => words[from] = rng.odd_word(),
                    1 => words[from + rng.index(65)] = rng.odd_word(),
                    _ => words[from..from + 65].iter_mut().for_each(|word| *word = rng.odd_word()),
                }
            }
        }
        // many words
        _ => {
            let (from, to) = match rng.below(4) {
                0 => (0, words.len()),
                1 => (4, words.len()),
                2 => (at, at + plan.stride()),
                _ => full.map_or((at, at), |full| (full, full + 65)),
            };
            let odd = rng.one_in(2);
            for word in &mut words[from..to] {
                *word = if odd { rng.odd_word() } else { rng.next() };
            }
        }
    }
    n
}

/// Cuts or lengthens a wall.
pub fn wrong_length(rng: &mut Rng, plan: &Plan, words: &mut Vec<u64>) {
    let length = words.len();
    let wanted = match rng.below(6) {
        0 => rng.index(6),
        1 => length.saturating_sub(1),
        2 => length + 1,
        3 => length + rng.pick(&[plan.stride(), 65, 64, 66]),
        4 => length.saturating_sub(rng.pick(&[plan.stride(), 65, 64, 66])),
        _ => rng.index(length + 10),
    };
    let filler = if rng.one_in(2) { 0 } else { rng.next() };
    words.resize(wanted, filler);
}

/// The number of ways of `unsound`.
pub const UNSOUND: u64 = 23;

/// A wall that is unsound in one way only, as far as its parameters admit that way, and the bucket to see it in. Ways 2 and 22 make a bucket that is about to overflow.
pub fn unsound(rng: &mut Rng, plan: &Plan, way: u64) -> (Vec<u64>, usize) {
    let p = plan.levels.count();
    let n = rng.index(plan.buckets());
    let place = rng.index(PLACES);
    let mut wall = Wall::random(rng, plan);
    wall.limit = plan.top();
    let d = 2 + rng.index(p - 1);
    let k = plan.levels.0[d - 1].0;
    // a bucket of few small counts, so that every level has room
    let mut few: Vec<u64> = vec![0; PLACES];
    for i in 0..rng.index(k.min(4) + 1) {
        few[(place + 7 * i) % PLACES] = plan.start(d) + rng.below(2);
    }
    let flag_at = |wall: &Wall| wall.moved.iter().position(|(bucket, _)| *bucket == n);
    // ways 12 to 21 speak of a flagged bucket
    if (12..22).contains(&way) && plan.full > 0 && flag_at(&wall).is_none() {
        wall.moved.pop();
        let mut full = vec![None; PLACES];
        full[place] = Some(wall.own[n][place] + 1);
        wall.moved.push((n, full));
    }
    match way {
        // more used entries than the level has, each of them in order
        0 | 1 => {
            let mut places: Vec<usize> = (0..PLACES).collect();
            rng.shuffle(&mut places);
            let mut counts = vec![0; PLACES];
            for place in &places[..k + 1 + rng.index(2)] {
                counts[*place] = plan.start(d);
            }
            wall.own[n] = counts;
        }
        // exactly as many as the level has, and as many as there is room for that the next increment takes there
        2 | 22 => {
            wall.own = vec![vec![0; PLACES]; plan.buckets()];
            wall.moved.retain(|(bucket, _)| *bucket != n);
            for (_, full) in &mut wall.moved {
                full.iter_mut().flatten().for_each(|count| *count = 1 + rng.below(20));
            }
            let mut places: Vec<usize> = (0..PLACES).collect();
            rng.shuffle(&mut places);
            for (i, place) in places.into_iter().take(plan.levels.0[d - 2].0).enumerate() {
                wall.own[n][place] = if i < k { plan.start(d) + rng.below(3) } else { plan.start(d) - 1 };
            }
        }
        3 | 4 | 5 | 6 => wall.own[n] = few.clone(),
        _ => {}
    }
    let mut words = wall.words();
    let at = plan.bucket_at(n);
    let ones = |j: usize, words: &[u64]| -> usize {
        // used entries of level j + 1
        match j {
            0 => PLACES,
            1 => words[at + plan.i1()].count_ones() as usize,
            _ => {
                let from: usize = plan.levels.0[1..j - 1].iter().map(|(k, _)| k).sum();
                let (k, _) = plan.levels.0[j - 1];
                (words[at + plan.packed()] >> from & ((1 << k) - 1)).count_ones() as usize
            }
        }
    };
    match way {
        // a mark above the used entries of level j, and the entry that it leads to
        3 | 4 => {
            let j = 2 + rng.index(p - 2);
            let used = ones(j - 1, &words);
            let next = ones(j, &words);
            let (k, _) = plan.levels.0[j - 1];
            let (next_k, next_width) = plan.levels.0[j];
            if used < k && next < next_k {
                let from: usize = plan.levels.0[1..j - 1].iter().map(|(k, _)| k).sum();
                words[at + plan.packed()] |= 1 << (from + rng.between(used as u64, k as u64 - 1) as usize);
                words[at + plan.a(j + 1)] |= 1 << (next * next_width as usize);
            }
        }
        // a bit above the used entries, within the level's entries or beyond them
        5 | 6 => {
            let (k, width) = plan.levels.0[d - 1];
            let from = ones(d - 1, &words) * width as usize;
            let from = if way == 6 { k * width as usize } else { from };
            if from < 64 {
                words[at + plan.a(d)] |= 1 << rng.between(from as u64, 63);
            }
        }
        // a last part of 0
        7 | 8 => {
            let (_, width) = plan.levels.0[d - 1];
            let used = ones(d - 1, &words);
            let from: usize = plan.levels.0[1..d - 1].iter().map(|(k, _)| k).sum();
            let last: Vec<usize> = (0..used).filter(|a| d == p || words[at + plan.packed()] >> (from + a) & 1 == 0).collect();
            if !last.is_empty() {
                let a = rng.pick(&last);
                words[at + plan.a(d)] &= !(((1 << width) - 1) << (a * width as usize));
            }
        }
        // spare packed bits, each of them
        9 => {
            let marks: u64 = plan.levels.0[1..p - 1].iter().map(|(k, _)| *k as u64).sum();
            let spare: Vec<u64> = (marks..40).chain(41..48).collect();
            words[at + plan.packed()] |= 1 << rng.pick(&spare);
        }
        // a number without the flag
        10 => {
            if words[at + plan.packed()] >> 40 & 1 == 0 {
                words[at + plan.packed()] |= 1 << rng.between(48, 63);
            }
        }
        // two buckets, each within the total, add up to more than it
        11 => {
            let sums: Vec<u64> = wall.counts().iter().map(|counts| counts.iter().sum()).collect();
            words[2] = *sums.iter().max().unwrap();
        }
        // what the overflow is to overwrite
        22 if wall.moved.len() < plan.full => words[plan.full_at(wall.moved.len())..].iter_mut().for_each(|word| *word = rng.odd_word()),
        _ => {}
    }
    if let Some(number) = flag_at(&wall) {
        let full = plan.full_at(number);
        let own = &wall.own[n];
        let moved: Vec<usize> = (0..PLACES).filter(|a| words[full] >> a & 1 == 1).collect();
        let unmoved: Vec<usize> = (0..PLACES).filter(|a| words[full] >> a & 1 == 0).collect();
        let used = wall.moved.len() as u64;
        let number_to = |words: &mut [u64], number: u64| words[at + plan.packed()] = words[at + plan.packed()] & ((1 << 48) - 1) | number << 48;
        match way {
            // a number not below U, within J and beyond it
            12 => number_to(&mut words, used),
            13 => number_to(&mut words, rng.pick(&[used + 1, plan.full as u64, 0x8000, 0xffff])),
            // no place moved
            14 => words[full..full + 65].fill(0),
            15 if !unmoved.is_empty() => words[full + 1 + rng.pick(&unmoved)] = rng.pick(&[1, 2, 1 << 63]),
            // a moved count that is the bucket's own, or one below it
            16 => {
                let a = rng.pick(&moved);
                words[full + 1 + a] = own[a].saturating_sub(rng.below(2));
            }
            // a flag set for a place that holds 0
            17 if !unmoved.is_empty() => words[full] |= 1 << rng.pick(&unmoved),
            // counts that wrap to a small sum
            18 if moved.len() >= 2 => {
                words[full + 1 + moved[0]] = 1 << 63;
                words[full + 1 + moved[1]] = 1 << 63;
            }
            19 => words[full + 1 + rng.pick(&moved)] = rng.pick(&[u64::MAX, plan.top() + 1, 1 << 63]),
            // one number held twice and another by none, or U one too high
            20 if used >= 2 => {
                let other = (number as u64 + 1) % used;
                number_to(&mut words, other);
            }
            20 | 21 if (used as usize) < plan.full => words[3] += 1 << 16,
            _ => {}
        }
    }
    match rng.below(8) {
        // the bucket's sum as the total, or one less
        0 => {
            if let Some(counts) = store::counts(&words, n) {
                words[2] = counts.iter().sum::<u64>().saturating_sub(rng.below(2));
            }
        }
        _ if matches!(way, 2 | 11 | 22) => {}
        roll => retotal(rng, plan, &mut words, roll % 2 == 0),
    }
    (words, n)
}
