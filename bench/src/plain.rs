//! The C calls as a box without a C library has them: the same objects, whose `memcpy` and `memset` are the loops below, a word
//! at a time. build.rs gives their names a prefix.

use core::ptr;

use crate::contenders::Calls;

extern "C" {
    fn plain_cinghjalofa_new(image: *mut u8, len: usize) -> i64;
    fn plain_cinghjalofa_allocate(image: *mut u8, len: usize, size: u64, order: u64) -> i64;
    fn plain_cinghjalofa_reserve_memory(image: *mut u8, len: usize, start: u64, size: u64, order: u64) -> i64;
    fn plain_cinghjalofa_free(image: *mut u8, len: usize, start: u64, size: u64) -> i64;
}

pub static CALLS: Calls = Calls { new, allocate, free, reserve };

fn new(image: &mut [u8]) -> i64 {
    // SAFETY: pointer and length are those of a slice that is borrowed for the whole call; so in each function below.
    unsafe { plain_cinghjalofa_new(image.as_mut_ptr(), image.len()) }
}

fn allocate(image: &mut [u8], size: u64, order: u64) -> i64 {
    unsafe { plain_cinghjalofa_allocate(image.as_mut_ptr(), image.len(), size, order) }
}

fn reserve(image: &mut [u8], start: u64, size: u64, order: u64) -> i64 {
    unsafe { plain_cinghjalofa_reserve_memory(image.as_mut_ptr(), image.len(), start, size, order) }
}

fn free(image: &mut [u8], start: u64, size: u64) -> i64 {
    unsafe { plain_cinghjalofa_free(image.as_mut_ptr(), image.len(), start, size) }
}

const WORD: usize = 8;

/// Volatile, or the compiler would make a call of `memcpy` of the loop.
///
/// # Safety
/// As of C's `memcpy`.
#[no_mangle]
pub unsafe extern "C" fn plain_memcpy(to: *mut u8, from: *const u8, bytes: usize) -> *mut u8 {
    let mut at = 0;
    while at + WORD <= bytes {
        let word = ptr::read_unaligned(from.add(at).cast::<[u8; WORD]>());
        ptr::write_volatile(to.add(at).cast::<Unaligned>(), Unaligned(u64::from_ne_bytes(word)));
        at += WORD;
    }
    while at < bytes {
        ptr::write_volatile(to.add(at), ptr::read(from.add(at)));
        at += 1;
    }
    to
}

/// # Safety
/// As of C's `memset`.
#[no_mangle]
pub unsafe extern "C" fn plain_memset(to: *mut u8, byte: i32, bytes: usize) -> *mut u8 {
    let word = Unaligned(u64::from_ne_bytes([byte as u8; WORD]));
    let mut at = 0;
    while at + WORD <= bytes {
        ptr::write_volatile(to.add(at).cast::<Unaligned>(), word);
        at += WORD;
    }
    while at < bytes {
        ptr::write_volatile(to.add(at), byte as u8);
        at += 1;
    }
    to
}

#[derive(Clone, Copy)]
#[repr(C, packed)]
struct Unaligned(u64);
