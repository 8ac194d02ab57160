//! Memory between two unreadable pages: a slice stands right before the one or right after the other, so that a read or a write past that end crashes.

use std::ffi::c_void;
use std::sync::Mutex;

extern "C" {
    fn mmap(address: *mut c_void, length: usize, protection: i32, flags: i32, file: i32, offset: i64) -> *mut c_void;
    fn mprotect(address: *mut c_void, length: usize, protection: i32) -> i32;
    fn signal(number: i32, handler: usize) -> usize;
    fn write(file: i32, bytes: *const c_void, length: usize) -> isize;
    fn _exit(status: i32) -> !;
}

const NONE: i32 = 0;
const READ: i32 = 1;
const WRITE: i32 = 2;
const PRIVATE_ANONYMOUS: i32 = 0x22;
const PAGE: usize = 4096;

pub struct Pen {
    from: *mut u8,
    size: usize,
}

impl Pen {
    pub fn new(pages: usize) -> Pen {
        let size = pages * PAGE;
        unsafe {
            let base = mmap(std::ptr::null_mut(), size + 2 * PAGE, NONE, PRIVATE_ANONYMOUS, -1, 0);
            assert!(base as isize != -1, "mmap failed");
            let from = (base as *mut u8).add(PAGE);
            assert!(mprotect(from.cast(), size, READ | WRITE) == 0, "mprotect failed");
            Pen { from, size }
        }
    }

    /// `length` bytes, right before the unreadable page above or right after the one below.
    pub fn bytes(&mut self, length: usize, at_end: bool) -> &mut [u8] {
        assert!(length <= self.size);
        unsafe { std::slice::from_raw_parts_mut(self.from.add(if at_end { self.size - length } else { 0 }), length) }
    }

    pub fn words(&mut self, length: usize, at_end: bool) -> &mut [u64] {
        let from = self.bytes(8 * length, at_end).as_mut_ptr();
        unsafe { std::slice::from_raw_parts_mut(from.cast(), length) }
    }

    /// Makes the memory readable only, or readable and writable again.
    pub fn seal(&mut self, sealed: bool) {
        let status = unsafe { mprotect(self.from.cast(), self.size, if sealed { READ } else { READ | WRITE }) };
        assert!(status == 0, "mprotect failed");
    }
}

/// Slices in the small pen, or in the large one if that is too small.
pub struct Pens {
    pub small: Pen,
    large: Pen,
    pub at_end: bool,
}

/// Pages of the small pen, and words of a page.
const SMALL: usize = 8;
const WORDS: usize = PAGE / 8;

impl Pens {
    /// For slices of up to so many words.
    pub fn new(most: usize) -> Pens {
        Pens { small: Pen::new(SMALL), large: Pen::new((most + WORDS - 1) / WORDS), at_end: true }
    }

    pub fn pen(&mut self, length: usize) -> &mut Pen {
        if length <= SMALL * WORDS {
            &mut self.small
        } else {
            &mut self.large
        }
    }

    pub fn words(&mut self, length: usize) -> &mut [u64] {
        let at_end = self.at_end;
        self.pen(length).words(length, at_end)
    }
}

/// What a crash names: the case of a part, or a row of the edges and its store.
static NAME: Mutex<String> = Mutex::new(String::new());

/// From here on a crash names this.
pub fn crashes_name(name: String) {
    *NAME.lock().unwrap() = name;
}

fn say(text: &str) {
    unsafe { write(1, text.as_ptr().cast(), text.len()) };
}

/// It formats nothing: a crash may interrupt anything, and in the emulator the stack of a handler is not aligned.
extern "C" fn crashed(_: i32) {
    let name = NAME.lock().unwrap();
    say("differential: a read or write outside the slice: ");
    say(&name);
    say("\n");
    unsafe { _exit(1) }
}

/// Crashes (SIGBUS and SIGSEGV) and panics name their case.
pub fn catch_crashes() {
    for number in [7, 11] {
        unsafe { signal(number, crashed as *const () as usize) };
    }
    std::panic::set_hook(Box::new(|panic| {
        let name = NAME.lock().unwrap().clone();
        println!("differential: {panic}: {name}");
        std::process::exit(1)
    }));
}
