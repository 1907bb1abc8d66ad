//! Clang's fuzzer, which chooses the programs by the code they cover.

use super::play;
use crate::linked::LINKED;
use std::ffi::{c_char, c_int, CString};

/// What the fuzzer calls with the bytes of a program.
type Tried = extern "C" fn(*const u8, usize) -> c_int;

unsafe extern "C" {
    fn LLVMFuzzerRunDriver(count: *mut c_int, words: *mut *mut *mut c_char, tried: Tried) -> c_int;
}

/// Plays a program to the linked library; a difference is printed and ends the process.
extern "C" fn tried(bytes: *const u8, length: usize) -> c_int {
    let bytes = match length {
        0 => &[],
        // SAFETY: the fuzzer passes a pointer to this many bytes, which nothing changes meanwhile.
        _ => unsafe { std::slice::from_raw_parts(bytes, length) },
    };
    if let Err(difference) = play(&LINKED, bytes) {
        eprintln!("a difference\n{difference}");
        std::process::abort();
    }
    0
}

/// Runs the fuzzer with its own arguments; returns whether it found nothing.
pub fn run(words: &[&str]) -> bool {
    let name = |word: &str| CString::new(word).expect("a word of a command line has no zero byte");
    let owned: Vec<CString> = ["second"]
        .iter()
        .chain(words)
        .map(|one| name(one))
        .collect();
    let mut pointers: Vec<*mut c_char> = owned.iter().map(|one| one.as_ptr().cast_mut()).collect();
    pointers.push(std::ptr::null_mut());
    let (mut count, mut words) = (owned.len() as c_int, pointers.as_mut_ptr());
    // SAFETY: count and words are those of a C program's main, and live as long as the call.
    unsafe { LLVMFuzzerRunDriver(&mut count, &mut words, tried) == 0 }
}
