//! The counter store a second time, written from the text of the scope of work and of the requests, and from nothing under crates/.
//!
//! It is slow and plain on purpose. A bucket is taken out of a wall as one list per level, holding the entries in use and their marks; a counter that grows into
//! a level is inserted into that level's list. Each answer is a number of the documents and a value. Sums are made in 128 bits.

pub type Answer = (u64, u64);

/// Counters of a bucket.
pub const PLACES: usize = 64;

/// Entries and widths of levels 2 and up.
fn upper_levels(shape: u64) -> Option<&'static [(usize, u32)]> {
    match shape {
        3 => Some(&[(15, 4), (3, 13)]),
        4 => Some(&[(25, 2), (10, 4), (2, 12)]),
        5 => Some(&[(25, 2), (10, 3), (3, 4), (1, 9)]),
        _ => None,
    }
}

/// What a shape and a width (1 to 16) fix: entries and width of each level, level 1 first.
#[derive(Clone)]
pub struct Levels(pub Vec<(usize, u32)>);

impl Levels {
    pub fn new(shape: u64, width: u64) -> Option<Levels> {
        let mut levels = vec![(PLACES, width as u32)];
        levels.extend_from_slice(upper_levels(shape)?);
        Some(Levels(levels))
    }

    /// p
    pub fn count(&self) -> usize {
        self.0.len()
    }

    /// L
    pub fn bits(&self) -> u32 {
        self.0.iter().map(|(_, width)| width).sum()
    }

    /// 2^L - 1
    pub fn top(&self) -> u64 {
        (1 << self.bits()) - 1
    }

    /// w1 + p + 1
    pub fn bucket_words(&self) -> usize {
        self.0[0].1 as usize + self.count() + 1
    }
}

pub struct Header {
    pub levels: Levels,
    pub bits: u64,
    /// M
    pub limit: u64,
    /// The increments accepted.
    pub total: u64,
    /// J
    pub full: usize,
    /// U
    pub used: usize,
    /// m
    pub spread: u64,
}

impl Header {
    pub fn buckets(&self) -> usize {
        (1 << self.bits) / PLACES
    }

    pub fn length(&self) -> usize {
        4 + self.buckets() * self.levels.bucket_words() + 65 * self.full
    }

    fn bucket_at(&self, bucket: usize) -> usize {
        4 + bucket * self.levels.bucket_words()
    }

    fn full_at(&self, number: usize) -> usize {
        self.bucket_at(self.buckets()) + 65 * number
    }
}

/// What makes this m no spread of a wall of 2^b flows. 0 is one, and so is every odd m below 2^b.
fn spread_fault(bits: u64, spread: u64) -> Option<&'static str> {
    match spread {
        0 => None,
        _ if spread % 2 == 0 => Some("m even"),
        _ if spread >= 1 << bits => Some("m over 2^b"),
        _ => None,
    }
}

/// The header that these arguments ask for (no increment accepted, none of J in use), or the first of the numbers 1 to 5 and then 15 that applies.
fn asked(shape: u64, width: u64, bits: u64, limit: u64, full: u64, spread: u64) -> Result<Header, u64> {
    if upper_levels(shape).is_none() {
        return Err(1);
    }
    if width > 16 {
        return Err(2);
    }
    let levels = Levels::new(shape, width).unwrap();
    if bits < 6 || bits > 22 {
        return Err(3);
    }
    if limit == 0 || limit > levels.top() {
        return Err(4);
    }
    let buckets = (1u64 << bits) / 64;
    if full > buckets || full > 4096 {
        return Err(5);
    }
    if spread_fault(bits, spread).is_some() {
        return Err(15);
    }
    Ok(Header { levels, bits, limit, total: 0, full: full as usize, used: 0, spread })
}

/// The header of a wall, or what is wrong with it (number 7).
fn header(words: &[u64]) -> Result<Header, &'static str> {
    if words.len() < 4 {
        return Err("fewer than 4 words");
    }
    let byte = |n: u32| (words[0] >> (8 * n)) & 0xff;
    if byte(0) != b'B' as u64 || byte(1) != b'W' as u64 || byte(2) != b'L' as u64 {
        return Err("mark");
    }
    if byte(3) + 256 * byte(4) != 1 {
        return Err("version");
    }
    if byte(6) == 0 {
        return Err("width 0");
    }
    let spread = words[3] >> 32;
    let mut header = asked(byte(5), byte(6), byte(7), words[1], words[3] & 0xffff, spread).map_err(|number| match number {
        1 => "shape",
        2 => "width",
        3 => "b",
        4 => "M",
        5 => "J",
        _ => spread_fault(byte(7), spread).unwrap(),
    })?;
    if words.len() != header.length() {
        return Err("length");
    }
    header.total = words[2];
    header.used = ((words[3] >> 16) & 0xffff) as usize;
    if header.total > header.limit {
        return Err("total over M");
    }
    if header.used > header.full {
        return Err("U over J");
    }
    Ok(header)
}

/// The entries of one level that are in use, and for each whether its counter goes on in the next level.
#[derive(Clone)]
struct Level {
    entries: Vec<u64>,
    marks: Vec<bool>,
}

impl Level {
    /// Where the counter at entry `at`, which goes on, stands in the next level.
    fn ones_below(&self, at: usize) -> usize {
        self.marks[..at].iter().filter(|mark| **mark).count()
    }
}

#[derive(Clone)]
struct Bucket {
    levels: Vec<Level>,
    flag: bool,
    number: usize,
}

/// Bits `from` to `from + width - 1` of some words, lowest word first.
fn bits_of(words: &[u64], from: usize, width: u32) -> u64 {
    let low = words[from / 64] as u128;
    let high = *words.get(from / 64 + 1).unwrap_or(&0) as u128;
    let both = (low | high << 64) >> (from % 64);
    (both & ((1u128 << width) - 1)) as u64
}

/// Sets these bits in words where they are 0.
fn put_bits(words: &mut [u64], from: usize, value: u64) {
    let both = (value as u128) << (from % 64);
    words[from / 64] |= both as u64;
    if both >> 64 != 0 {
        words[from / 64 + 1] |= (both >> 64) as u64;
    }
}

fn bit(word: u64, at: usize) -> bool {
    at < 64 && word >> at & 1 == 1
}

impl Bucket {
    /// The bucket in these words, with what is unsound about its levels and its packed word. Where a level would have more entries in use than it has, the lists
    /// end there.
    fn take(levels: &Levels, words: &[u64]) -> (Bucket, Vec<&'static str>) {
        let mut faults = Vec::new();
        let p = levels.count();
        let w1 = levels.0[0].1;
        let packed = words[w1 as usize + p];

        let first = Level {
            entries: (0..PLACES).map(|a| bits_of(&words[..w1 as usize], a * w1 as usize, w1)).collect(),
            marks: (0..PLACES).map(|a| bit(words[w1 as usize], a)).collect(),
        };
        let mut bucket = Bucket { levels: vec![first], flag: bit(packed, 40), number: (packed >> 48) as usize };

        // I2 and so on stand one after the other in the packed word
        let mut marks_from = 0;
        let mut used = words[w1 as usize].count_ones() as usize;
        for j in 1..p {
            let (k, width) = levels.0[j];
            let word = words[w1 as usize + j];
            if used > k {
                faults.push("more ones than entries");
                return (bucket, faults);
            }
            let entries: Vec<u64> = (0..used).map(|a| bits_of(&[word], a * width as usize, width)).collect();
            if word as u128 >> (used * width as usize) != 0 {
                faults.push("bits above the used entries");
            }
            // the last level has no marks
            let mut marks: Vec<bool> = (0..k).map(|a| j < p - 1 && bit(packed, marks_from + a)).collect();
            let ones = marks.iter().filter(|mark| **mark).count();
            if marks[used..].contains(&true) {
                faults.push("a mark above the used entries");
            }
            marks.truncate(used);
            if (0..used).any(|a| entries[a] == 0 && !marks[a]) {
                faults.push("a last part of 0");
            }
            bucket.levels.push(Level { entries, marks });
            if j < p - 1 {
                marks_from += k;
            }
            used = ones;
        }
        if (marks_from..48).any(|at| at != 40 && bit(packed, at)) {
            faults.push("spare packed bits");
        }
        if !bucket.flag && bucket.number != 0 {
            faults.push("a number without the flag");
        }
        (bucket, faults)
    }

    /// The words of this bucket.
    fn put(&self, levels: &Levels, words: &mut [u64]) {
        words.fill(0);
        let p = levels.count();
        let w1 = levels.0[0].1 as usize;
        for (a, entry) in self.levels[0].entries.iter().enumerate() {
            put_bits(&mut words[..w1], a * w1, *entry);
        }
        for (a, mark) in self.levels[0].marks.iter().enumerate() {
            words[w1] |= (*mark as u64) << a;
        }
        let mut marks_from = 0;
        for j in 1..p {
            let (k, width) = levels.0[j];
            for (a, entry) in self.levels[j].entries.iter().enumerate() {
                put_bits(&mut words[w1 + j..w1 + j + 1], a * width as usize, *entry);
            }
            for (a, mark) in self.levels[j].marks.iter().enumerate() {
                words[w1 + p] |= (*mark as u64) << (marks_from + a);
            }
            marks_from += k;
        }
        words[w1 + p] |= (self.flag as u64) << 40 | (self.number as u64) << 48;
    }

    /// The bucket's own count at a place: the parts of its entries, part j weighted by 2^(L_j).
    fn own(&self, levels: &Levels, place: usize) -> u64 {
        let (mut at, mut weight, mut count) = (place, 0, 0);
        for (level, (_, width)) in self.levels.iter().zip(&levels.0) {
            count += level.entries[at] << weight;
            if !level.marks[at] {
                break;
            }
            at = level.ones_below(at);
            weight += width;
        }
        count
    }

    /// The bucket with one more at this place, or nothing if a level that the counter grows into has all its entries in use. The count is below 2^L - 1.
    fn step(mut self, levels: &Levels, place: usize) -> Option<Bucket> {
        let mut at = place;
        for j in 0..levels.count() {
            let (_, width) = levels.0[j];
            if self.levels[j].entries[at] + 1 < 1 << width {
                self.levels[j].entries[at] += 1;
                return Some(self);
            }
            self.levels[j].entries[at] = 0;
            let next = self.levels[j].ones_below(at);
            if !self.levels[j].marks[at] {
                if self.levels[j + 1].entries.len() == levels.0[j + 1].0 {
                    return None;
                }
                self.levels[j].marks[at] = true;
                self.levels[j + 1].entries.insert(next, 1);
                self.levels[j + 1].marks.insert(next, false);
                return Some(self);
            }
            at = next;
        }
        unreachable!("the count was 2^L - 1")
    }
}

/// A bucket of a wall with its 64 counts, or what is unsound about it.
fn judge(header: &Header, words: &[u64], n: usize) -> Result<(Bucket, Vec<u64>), Vec<&'static str>> {
    let at = header.bucket_at(n);
    let (bucket, mut faults) = Bucket::take(&header.levels, &words[at..at + header.levels.bucket_words()]);
    if bucket.flag && bucket.number >= header.used {
        faults.push("a number not below U");
        return Err(faults);
    }
    if bucket.levels.len() < header.levels.count() || faults.contains(&"a mark above the used entries") {
        return Err(faults); // its own counts cannot be read
    }
    let mut counts: Vec<u64> = (0..PLACES).map(|place| bucket.own(&header.levels, place)).collect();
    if bucket.flag {
        let full = &words[header.full_at(bucket.number)..][..65];
        if full[0] == 0 {
            faults.push("the flag and no place moved");
        }
        for place in 0..PLACES {
            let moved = full[1 + place];
            if bit(full[0], place) {
                if moved <= counts[place] {
                    faults.push("a moved count not above the bucket's own");
                }
                counts[place] = moved;
            } else if moved != 0 {
                faults.push("an unmoved place not 0");
            }
        }
    }
    if exact_sum(&counts) > header.total as u128 {
        faults.push("counts over the total");
    }
    if faults.is_empty() {
        Ok((bucket, counts))
    } else {
        Err(faults)
    }
}

fn exact_sum(counts: &[u64]) -> u128 {
    counts.iter().map(|count| *count as u128).sum()
}

/// The 64 counts of a bucket, if the wall's header is good and the bucket sound.
pub fn counts(words: &[u64], bucket: usize) -> Option<Vec<u64>> {
    judge(&header(words).ok()?, words, bucket).ok().map(|(_, counts)| counts)
}

/// What a whole wall is found to be.
pub enum Finding {
    /// The counts of each bucket.
    Sound(Vec<Vec<u64>>),
    BadHeader(&'static str),
    /// The lowest unsound bucket and what is unsound about it.
    Bucket(usize, Vec<&'static str>),
    /// Every bucket is sound and the wall is not.
    Wall(Vec<&'static str>),
}

impl Finding {
    pub fn answer(&self) -> Answer {
        match self {
            Finding::Sound(_) => (0, 0),
            Finding::BadHeader(_) => (7, 0),
            Finding::Bucket(n, _) => (9, *n as u64),
            Finding::Wall(_) => (13, 0),
        }
    }
}

pub fn examine(words: &[u64]) -> Finding {
    let header = match header(words) {
        Ok(header) => header,
        Err(fault) => return Finding::BadHeader(fault),
    };
    let mut all = Vec::new();
    let mut sum = 0u128;
    let mut holders = vec![0; header.used];
    for n in 0..header.buckets() {
        match judge(&header, words, n) {
            Err(faults) => return Finding::Bucket(n, faults),
            Ok((bucket, counts)) => {
                sum += exact_sum(&counts);
                if bucket.flag {
                    holders[bucket.number] += 1;
                }
                all.push(counts);
            }
        }
    }
    let mut faults = Vec::new();
    if sum < header.total as u128 {
        faults.push("counts below the total");
    }
    if sum > header.total as u128 {
        faults.push("all counts over the total");
    }
    if holders.iter().any(|holders| *holders > 1) {
        faults.push("a number held twice");
    }
    if holders.contains(&0) {
        faults.push("a number held by none");
    }
    if words[header.full_at(header.used)..].iter().any(|word| *word != 0) {
        faults.push("a full-size bucket from U up not 0");
    }
    if faults.is_empty() {
        Finding::Sound(all)
    } else {
        Finding::Wall(faults)
    }
}

pub fn raise(words: &mut [u64], shape: u64, width: u64, bits: u64, limit: u64, full: u64, spread: u64) -> Answer {
    let width = if width == 0 { 7 } else { width };
    let header = match asked(shape, width, bits, limit, full, spread) {
        Ok(header) => header,
        Err(number) => return (number, 0),
    };
    if words.len() != header.length() {
        return (6, 0);
    }
    words.fill(0);
    for (n, byte) in [b'B' as u64, b'W' as u64, b'L' as u64, 1, 0, shape, width, bits].iter().enumerate() {
        words[0] |= byte << (8 * n);
    }
    words[1] = limit;
    words[3] = full + (spread << 32);
    (0, 0)
}

/// Header, bucket's number, place, bucket and its counts, or the first of the numbers 7, 8 and 9 that applies.
fn open(words: &[u64], flow: u64) -> Result<(Header, usize, usize, Bucket, Vec<u64>), u64> {
    let header = header(words).map_err(|_| 7u64)?;
    let (number, slot) = slot(header.bits, header.spread, flow);
    if number != 0 {
        return Err(number);
    }
    let (n, place) = (slot as usize / PLACES, slot as usize % PLACES);
    let (bucket, counts) = judge(&header, words, n).map_err(|_| 9u64)?;
    Ok((header, n, place, bucket, counts))
}

pub fn lookup(words: &[u64], flow: u64) -> Answer {
    match open(words, flow) {
        Ok((_, _, place, _, counts)) => (0, counts[place]),
        Err(number) => (number, 0),
    }
}

pub fn increment(words: &mut [u64], flow: u64) -> Answer {
    let (header, n, place, mut bucket, counts) = match open(words, flow) {
        Ok(opened) => opened,
        Err(number) => return (number, 0),
    };
    if header.total == header.limit {
        return (10, 0);
    }
    if counts[place] == header.levels.top() {
        return (11, 0);
    }
    let count = counts[place] + 1;
    let at = header.bucket_at(n);
    let bucket_words = at..at + header.levels.bucket_words();
    if bucket.flag {
        let full = header.full_at(bucket.number);
        words[full] |= 1 << place;
        words[full + 1 + place] = count;
    } else if let Some(stepped) = bucket.clone().step(&header.levels, place) {
        stepped.put(&header.levels, &mut words[bucket_words]);
    } else {
        if header.used == header.full {
            return (12, 0);
        }
        let full = header.full_at(header.used);
        words[full..full + 65].fill(0);
        words[full] = 1 << place;
        words[full + 1 + place] = count;
        bucket.flag = true;
        bucket.number = header.used;
        bucket.put(&header.levels, &mut words[bucket_words]);
        words[3] += 1 << 16;
    }
    words[2] += 1;
    (0, count)
}

pub fn check(words: &[u64]) -> Answer {
    examine(words).answer()
}

/// The count of each flow, or the number with which the check refuses the words.
pub fn flow_counts(words: &[u64]) -> Result<Vec<u64>, u64> {
    match examine(words) {
        Finding::Sound(counts) => {
            let header = header(words).map_err(|_| 7u64)?;
            Ok(slots(header.bits, header.spread).iter().map(|slot| counts[slot / PLACES][slot % PLACES]).collect())
        }
        finding => Err(finding.answer().0),
    }
}

/// Lists the flows whose count is at least the floor. These are the counts of all flows.
pub fn list_flows(counts: &[u64], floor: u64, list: &mut [u64]) -> Answer {
    let busy: Vec<usize> = (0..counts.len()).filter(|flow| counts[*flow] >= floor).collect();
    if 2 * busy.len() > list.len() {
        return (14, 0);
    }
    for (n, flow) in busy.iter().enumerate() {
        list[2 * n] = *flow as u64;
        list[2 * n + 1] = counts[*flow];
    }
    (0, busy.len() as u64)
}

pub fn busy(words: &[u64], floor: u64, list: &mut [u64]) -> Answer {
    match flow_counts(words) {
        Ok(counts) => list_flows(&counts, floor, list),
        Err(number) => (number, 0),
    }
}

pub fn close(words: &mut [u64]) -> Answer {
    let header = match header(words) {
        Ok(header) => header,
        Err(_) => return (7, 0),
    };
    words[2..].fill(0);
    words[3] = header.full as u64 + (header.spread << 32);
    (0, 0)
}

pub fn slot(bits: u64, spread: u64, flow: u64) -> Answer {
    if bits < 6 || bits > 22 {
        return (3, 0);
    }
    if spread_fault(bits, spread).is_some() {
        return (15, 0);
    }
    if flow >= 1 << bits {
        return (8, 0);
    }
    if spread == 0 {
        (0, (0..bits).map(|i| (flow >> i & 1) << (bits - 1 - i)).sum())
    } else {
        (0, flow * spread % (1 << bits))
    }
}

/// The slots of all flows. With a spread each is m on from the slot before it, and past the last slot from the first again. Without one, a bit more is the
/// flow's highest and the slot's lowest.
fn slots(bits: u64, spread: u64) -> Vec<usize> {
    if spread != 0 {
        let step = |slot: &usize| Some((slot + spread as usize) % (1 << bits));
        return std::iter::successors(Some(0), step).take(1 << bits).collect();
    }
    let mut slots = vec![0];
    for _ in 0..bits {
        let doubled: Vec<usize> = slots.iter().map(|slot| 2 * slot).collect();
        slots = doubled.iter().copied().chain(doubled.iter().map(|slot| slot + 1)).collect();
    }
    slots
}

pub fn limits(shape: u64, width: u64) -> Answer {
    let width = if width == 0 { 7 } else { width };
    match shape {
        3 | 4 | 5 if width > 16 => (2, 0),
        3 => (0, width + 17),
        4 | 5 => (0, width + 18),
        _ => (1, 0),
    }
}

pub fn image(bytes: &[u8], n: u64) -> Answer {
    if 8 * n as u128 + 8 > bytes.len() as u128 {
        return (6, 0);
    }
    let from = 8 * n as usize;
    (0, (0..8).map(|i| (bytes[from + i] as u64) << (8 * i)).sum())
}
