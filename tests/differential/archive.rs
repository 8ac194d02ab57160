//! The proved store: the calls of libcard.a and libhost.a.

use crate::store::Answer;

#[repr(C)]
struct Reply {
    number: u64,
    value: u64,
}

impl Reply {
    fn answer(self) -> Answer {
        (self.number, self.value)
    }
}

extern "C" {
    fn wall_raise(words: *mut u64, length: usize, shape: u64, width: u64, bits: u64, limit: u64, full: u64, spread: u64) -> Reply;
    fn wall_lookup(words: *const u64, length: usize, flow: u64) -> Reply;
    fn wall_increment(words: *mut u64, length: usize, flow: u64) -> Reply;
    fn wall_check(words: *const u64, length: usize) -> Reply;
    fn wall_busy(words: *const u64, length: usize, floor: u64, list: *mut u64, list_length: usize) -> Reply;
    fn wall_close(words: *mut u64, length: usize) -> Reply;
    fn wall_slot(bits: u64, spread: u64, flow: u64) -> Reply;
    fn wall_limits(shape: u64, width: u64) -> Reply;
    fn wall_image(bytes: *const u8, length: usize, n: u64) -> Reply;
}

pub fn raise(words: &mut [u64], shape: u64, width: u64, bits: u64, limit: u64, full: u64, spread: u64) -> Answer {
    unsafe { wall_raise(words.as_mut_ptr(), words.len(), shape, width, bits, limit, full, spread).answer() }
}

pub fn lookup(words: &[u64], flow: u64) -> Answer {
    unsafe { wall_lookup(words.as_ptr(), words.len(), flow).answer() }
}

pub fn increment(words: &mut [u64], flow: u64) -> Answer {
    unsafe { wall_increment(words.as_mut_ptr(), words.len(), flow).answer() }
}

pub fn check(words: &[u64]) -> Answer {
    unsafe { wall_check(words.as_ptr(), words.len()).answer() }
}

pub fn busy(words: &[u64], floor: u64, list: &mut [u64]) -> Answer {
    unsafe { wall_busy(words.as_ptr(), words.len(), floor, list.as_mut_ptr(), list.len()).answer() }
}

/// The list of length 0 at the null pointer, which the header file allows.
pub fn busy_without_list(words: &[u64], floor: u64) -> Answer {
    unsafe { wall_busy(words.as_ptr(), words.len(), floor, std::ptr::null_mut(), 0).answer() }
}

pub fn close(words: &mut [u64]) -> Answer {
    unsafe { wall_close(words.as_mut_ptr(), words.len()).answer() }
}

pub fn slot(bits: u64, spread: u64, flow: u64) -> Answer {
    unsafe { wall_slot(bits, spread, flow).answer() }
}

pub fn limits(shape: u64, width: u64) -> Answer {
    unsafe { wall_limits(shape, width).answer() }
}

pub fn image(bytes: &[u8], n: u64) -> Answer {
    unsafe { wall_image(bytes.as_ptr(), bytes.len(), n).answer() }
}

/// The image of length 0 at the null pointer, which the header file allows.
pub fn image_of_nothing(n: u64) -> Answer {
    unsafe { wall_image(std::ptr::null(), 0, n).answer() }
}
