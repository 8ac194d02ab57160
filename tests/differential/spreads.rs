//! What a run met of the spreads: on walls of each, and in refusals on both sides of theirs.

use crate::met::used;
use crate::store::Answer;
use crate::Call;

/// The spreads told apart.
const SPREADS: [&str; 4] = ["0", "1", "2^b - 1", "another"];

/// What is met on walls of each spread.
const DONE: [&str; 6] = ["raised", "a count above 0 looked up", "incremented", "overflowed", "flows listed", "closed after increments"];

/// What is met in a raise and in a slot call, where the numbers beside 15 are 5 and 6, or 3 and 8.
const REFUSED: [&str; 6] = [
    "the number before 15, and m is no spread",
    "15 for an even m below 2^b",
    "15 for 2^b",
    "15 for an odd m above 2^b",
    "15 for an m that is good in its low 32 bits",
    "15, and the number after it applies",
];

#[derive(Default)]
pub struct Spreads {
    /// By what is done, spread and shape from 3.
    done: [[[u64; 3]; 4]; 6],
    /// Increments by b from 6 and spread.
    counted: [[u64; 4]; 17],
    /// By raise and slot.
    refused: [[u64; 6]; 2],
}

fn kind(bits: u64, spread: u64) -> usize {
    match spread {
        0 | 1 => spread as usize,
        _ if spread == (1 << bits) - 1 => 2,
        _ => 3,
    }
}

impl Spreads {
    /// A call that is done, with its wall before and after, or a raise.
    pub fn on_wall(&mut self, call: Call, before: &[u64], after: &[u64], (number, value): Answer) {
        if let Call::Raise { shape, width, bits, full, spread, .. } = call {
            let width = if width == 0 { 7 } else { width };
            // where the arguments before it are good
            let exact = || 4 + (1 << (bits - 6)) * (width + shape + 1) + 65 * full;
            let later = number == 15 && after.len() as u64 != exact();
            self.refusal(0, bits, spread, [number == 5, number == 15, later]);
        }
        let done = match call {
            _ if number != 0 => return,
            Call::Raise { .. } => 0,
            Call::Lookup { .. } if value > 0 => 1,
            Call::Increment { .. } if used(after) > used(before) => 3,
            Call::Increment { .. } => 2,
            Call::Busy { .. } if value > 0 => 4,
            Call::Close if before[2] > 0 => 5,
            _ => return,
        };
        let (shape, bits) = (after[0] >> 40 & 0xff, after[0] >> 56);
        let kind = kind(bits, after[3] >> 32);
        self.done[done][kind][shape as usize - 3] += 1;
        if let Call::Increment { .. } = call {
            self.counted[bits as usize - 6][kind] += 1;
        }
    }

    pub fn slot(&mut self, bits: u64, spread: u64, flow: u64, (number, _): Answer) {
        self.refusal(1, bits, spread, [number == 3, number == 15, number == 15 && flow >> bits != 0]);
    }

    /// What is refused, with the number before 15, with 15, and with 15 where the number after it applies.
    fn refusal(&mut self, call: usize, bits: u64, spread: u64, [earlier, refused, later]: [bool; 3]) {
        let even = spread % 2 == 0 && spread != 0;
        let low = spread & 0xffff_ffff;
        let met = [
            earlier && even,
            refused && even && spread >> bits == 0,
            refused && spread == 1 << bits,
            refused && !even,
            refused && spread != low && low % 2 == 1 && low >> bits == 0,
            later,
        ];
        self.refused[call].iter_mut().zip(met).for_each(|(count, met)| *count += met as u64);
    }

    pub fn print(&self) {
        println!("\non walls of each spread, by shape 3, 4, 5:");
        for (name, kinds) in DONE.iter().zip(&self.done) {
            for (spread, counts) in SPREADS.iter().zip(kinds) {
                println!("{:43} {:>7} {:>8} {:>8}", format!("{name}, m is {spread}"), counts[0], counts[1], counts[2]);
            }
        }
        println!("\nincrements done, by b from 6 to 22:");
        for (kind, spread) in SPREADS.iter().enumerate() {
            print!("m is {spread:7}");
            self.counted.iter().for_each(|counts| print!(" {:>7}", counts[kind]));
            println!();
        }
        println!("\nrefusals for a spread, by raise and slot:");
        for (n, name) in REFUSED.iter().enumerate() {
            println!("{name:43} {:>7} {:>8}", self.refused[0][n], self.refused[1][n]);
        }
    }

    /// What no call met. A spread of 1 is asked for at some b only.
    pub fn missing(&self) -> Vec<String> {
        let mut missing = Vec::new();
        for (name, kinds) in DONE.iter().zip(&self.done) {
            for (spread, counts) in SPREADS.iter().zip(kinds) {
                let shapes = (3..).zip(counts).filter(|(_, count)| **count == 0);
                missing.extend(shapes.map(|(shape, _)| format!("shape {shape}: never {name} where m is {spread}")));
            }
        }
        for (bits, counts) in (6..).zip(&self.counted) {
            let never = [0, 2, 3].into_iter().filter(|kind| counts[*kind] == 0);
            missing.extend(never.map(|kind| format!("b {bits}: never incremented where m is {}", SPREADS[kind])));
        }
        for (call, counts) in ["raise", "slot"].iter().zip(&self.refused) {
            let never = REFUSED.iter().zip(counts).filter(|(_, count)| **count == 0);
            missing.extend(never.map(|(name, _)| format!("{call} never met: {name}")));
        }
        missing
    }
}
