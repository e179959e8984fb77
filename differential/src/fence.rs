//! Memory between two fences, which are pages that can be neither read nor written.
//!
//! A text or a room ends at the upper fence or begins at the lower one. A call that touches a byte beyond it then ends
//! the program, and [`watch`] has the program print the text or room first.
//!
//! For Linux: the constants below are its own.

use std::ffi::c_void;
use std::ptr;
use std::sync::atomic::{AtomicPtr, AtomicUsize, Ordering};

unsafe extern "C" {
    fn mmap(at: *mut c_void, len: usize, access: i32, flags: i32, file: i32, offset: i64) -> *mut c_void;
    fn mprotect(at: *mut c_void, len: usize, access: i32) -> i32;
    fn signal(number: i32, handler: extern "C" fn(i32)) -> usize;
    fn write(file: i32, bytes: *const u8, len: usize) -> isize;
    fn _exit(status: i32) -> !;
}

const PAGE: usize = 4096;
const NONE: i32 = 0;
const READ_WRITE: i32 = 1 | 2;
const PRIVATE_ANONYMOUS: i32 = 0x02 | 0x20;
const SEGMENTATION_FAULT: i32 = 11;
const STANDARD_ERROR: i32 = 2;

/// The slice that was handed out last, for [`touched`] to print.
static HANDED_OUT: AtomicPtr<u8> = AtomicPtr::new(ptr::null_mut());
static HANDED_OUT_LEN: AtomicUsize = AtomicUsize::new(0);

/// Some pages between two fences.
pub struct Fence {
    start: *mut u8,
    len: usize,
}

impl Fence {
    /// Memory for texts of up to `len` bytes. It is not freed before the program ends.
    pub fn new(len: usize) -> Fence {
        let len = len.next_multiple_of(PAGE);
        // SAFETY: the mapping is new, so nothing else points into it. It has `len` bytes and a page on either side, so
        // `start` and the pages that are opened lie inside it.
        unsafe {
            let base = mmap(ptr::null_mut(), len + 2 * PAGE, NONE, PRIVATE_ANONYMOUS, -1, 0);
            assert!(base as isize != -1, "no memory for a fence");
            let start = base.cast::<u8>().add(PAGE);
            assert_eq!(mprotect(start.cast(), len, READ_WRITE), 0, "no memory within the fence");
            Fence { start, len }
        }
    }

    /// The last `len` bytes before the upper fence.
    pub fn last(&mut self, len: usize) -> &mut [u8] {
        self.slice(self.len - len.min(self.len), len)
    }

    /// The first `len` bytes after the lower fence.
    pub fn first(&mut self, len: usize) -> &mut [u8] {
        self.slice(0, len)
    }

    /// `len` bytes from `at` on.
    fn slice(&mut self, at: usize, len: usize) -> &mut [u8] {
        assert!(at + len <= self.len, "the fence is for texts of up to {} bytes", self.len);
        // SAFETY: `at + len` is at most `self.len`, so the bytes lie in the accessible pages, which the kernel filled with
        // zeros and which are never unmapped. The slice borrows `self` mutably, so there is no other.
        let slice = unsafe { std::slice::from_raw_parts_mut(self.start.add(at), len) };
        HANDED_OUT.store(slice.as_mut_ptr(), Ordering::Relaxed);
        HANDED_OUT_LEN.store(len, Ordering::Relaxed);
        slice
    }
}

/// From here on, a program that touches a fence prints the slice that was handed out last and exits with status 1.
pub fn watch() {
    // SAFETY: `touched` has the signature of a handler and calls only `write` and `_exit`, which are allowed in one.
    unsafe { signal(SEGMENTATION_FAULT, touched) };
}

extern "C" fn touched(_: i32) {
    let say = |bytes: &[u8]| {
        // SAFETY: pointer and length are those of a slice, which `write` only reads.
        unsafe { write(STANDARD_ERROR, bytes.as_ptr(), bytes.len()) };
    };
    let start = HANDED_OUT.load(Ordering::Relaxed);
    say(b"\na byte outside the memory of a call was touched; that memory was \"");
    for place in 0..HANDED_OUT_LEN.load(Ordering::Relaxed).min(200) {
        // SAFETY: `start` and its length were stored together by this thread, and the mapping is never unmapped.
        let byte = unsafe { *start.add(place) };
        if (32..127).contains(&byte) {
            say(&[byte]);
        } else {
            let digit = |half: u8| b"0123456789abcdef"[usize::from(half)];
            say(&[b'\\', b'x', digit(byte >> 4), digit(byte & 15)]);
        }
    }
    say(b"\"\n");
    // SAFETY: `_exit` takes any status and does not return; it runs no code of this program.
    unsafe { _exit(1) };
}
