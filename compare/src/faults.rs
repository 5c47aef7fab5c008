//! The message when a call touches a page that cannot be touched: which case it was, so that it can be shown.

use std::sync::atomic::{AtomicU8, Ordering};

const BEFORE: &[u8] = b"compare: DIFFERENT: memory beside a buffer was touched by the case that this shows: compare --show";
const WORD: usize = 21;

/// The last two words of the message, a blank and up to twenty digits each, and the end of the line. It stands ready before each call,
/// since nothing but plain writing is safe to do after the fault.
static WORDS: [AtomicU8; 2 * WORD + 1] = {
    #[allow(clippy::declare_interior_mutable_const)] // only to fill the array
    const BLANK: AtomicU8 = AtomicU8::new(b' ');
    [BLANK; 2 * WORD + 1]
};

extern "C" {
    fn signal(signal: i32, handler: extern "C" fn(i32)) -> usize;
    fn write(file: i32, bytes: *const u8, length: usize) -> isize;
    fn _exit(status: i32) -> !;
}

/// Notes the case that is about to be made.
pub fn note(seed: u64, number: u64) {
    for (mut rest, end) in [(seed, WORD), (number, 2 * WORD)] {
        let mut place = end;
        loop {
            place -= 1;
            WORDS[place].store(b'0' + (rest % 10) as u8, Ordering::Relaxed);
            rest /= 10;
            if rest == 0 {
                break;
            }
        }
    }
    WORDS[2 * WORD].store(b'\n', Ordering::Relaxed);
}

extern "C" fn fault(_: i32) {
    // SAFETY: two texts that last as long as the program, and the end of it. An atomic byte is laid out as a byte.
    unsafe {
        write(2, BEFORE.as_ptr(), BEFORE.len());
        write(2, WORDS.as_ptr().cast(), WORDS.len());
        _exit(1)
    }
}

/// Ends the program with the message at a fault of memory.
pub fn catch() {
    const FAULTS: [i32; 2] = [11, 7];
    for kind in FAULTS {
        // SAFETY: the handler does nothing but write and end the program.
        unsafe {
            signal(kind, fault);
        }
    }
}
