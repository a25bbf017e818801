//! Words of memory that end at a page which may not be touched: reading or writing past them ends the program.

use std::ffi::c_void;
use std::ptr;

extern "C" {
    fn mmap(start: *mut c_void, length: usize, protection: i32, flags: i32, file: i32, offset: i64) -> *mut c_void;
    fn mprotect(start: *mut c_void, length: usize, protection: i32) -> i32;
    fn munmap(start: *mut c_void, length: usize) -> i32;
}

/// Linux's numbers.
const NO_ACCESS: i32 = 0;
const READ_AND_WRITE: i32 = 1 | 2;
const PRIVATE_AND_OF_NO_FILE: i32 = 2 | 32;

const PAGE: usize = 4096;

/// A room of whole pages, and the fence behind it.
pub struct FencedRoom {
    start: *mut c_void,
    bytes: usize,
}

impl FencedRoom {
    /// Room for that many words, which have to fill whole pages.
    pub fn new(words: usize) -> FencedRoom {
        let bytes = 8 * words;
        assert_eq!(bytes % PAGE, 0, "whole pages");
        // SAFETY: new memory that nothing else uses, and a fence within it.
        let start = unsafe {
            let start = mmap(ptr::null_mut(), bytes + PAGE, READ_AND_WRITE, PRIVATE_AND_OF_NO_FILE, -1, 0);
            assert_ne!(start as isize, -1, "there is memory");
            assert_eq!(mprotect(start.byte_add(bytes), PAGE, NO_ACCESS), 0, "the last page can be fenced");
            start
        };
        FencedRoom { start, bytes }
    }

    pub fn words(&mut self) -> &mut [u64] {
        // SAFETY: the memory is there for as long as the room, and borrowed with it; any bytes are words.
        unsafe { std::slice::from_raw_parts_mut(self.start.cast(), self.bytes / 8) }
    }
}

impl Drop for FencedRoom {
    fn drop(&mut self) {
        // SAFETY: nothing borrows the room any more.
        unsafe { munmap(self.start, self.bytes + PAGE) };
    }
}
