//! Bytes between two pages that may not be touched: a call that reads or writes a byte beside those
//! lent to it ends the test at once, with no help from a sanitizer.

use std::ffi::c_void;
use std::{ptr, slice};

extern "C" {
    fn mmap(
        at: *mut c_void,
        size: usize,
        prot: i32,
        flags: i32,
        file: i32,
        from: i64,
    ) -> *mut c_void;
    fn mprotect(at: *mut c_void, size: usize, prot: i32) -> i32;
    fn munmap(at: *mut c_void, size: usize) -> i32;
}

// Linux on x86-64, which the archive is built for.
const PAGE: usize = 4096;
const NO_ACCESS: i32 = 0;
const READ_WRITE: i32 = 3;
const PRIVATE_ANONYMOUS: i32 = 0x22;

pub struct Guarded {
    mapped: *mut u8,
    room: usize,
    /// Whether the next bytes lent stand at the front, straight behind the page before them, or at
    /// the back, straight before the page behind them. It changes from call to call.
    front: bool,
}

impl Guarded {
    /// Room for so many bytes.
    pub fn new(room: usize) -> Guarded {
        let room = room.next_multiple_of(PAGE);
        let size = room + 2 * PAGE;
        // SAFETY: a new mapping, of which the first and the last page are then closed.
        let mapped = unsafe {
            let mapped = mmap(ptr::null_mut(), size, READ_WRITE, PRIVATE_ANONYMOUS, -1, 0);
            assert!(!mapped.is_null() && mapped as isize != -1, "no memory");
            let last = mapped.byte_add(PAGE + room);
            assert_eq!(mprotect(mapped, PAGE, NO_ACCESS), 0, "first page");
            assert_eq!(mprotect(last, PAGE, NO_ACCESS), 0, "last page");
            mapped.cast()
        };
        Guarded {
            mapped,
            room,
            front: false,
        }
    }

    /// Lends a copy of the bytes, which must be the same afterwards.
    pub fn with<T>(&mut self, bytes: &[u8], call: impl FnOnce(&[u8]) -> T) -> T {
        let lent = self.lend(bytes);
        let result = call(lent);
        assert_eq!(lent, bytes, "bytes lent for reading were written");
        result
    }

    /// Lends a copy of the bytes, and copies back what they become.
    pub fn with_mut<T>(&mut self, bytes: &mut [u8], call: impl FnOnce(&mut [u8]) -> T) -> T {
        let lent = self.lend(bytes);
        let result = call(lent);
        bytes.copy_from_slice(lent);
        result
    }

    fn lend(&mut self, bytes: &[u8]) -> &mut [u8] {
        let length = bytes.len();
        assert!(length <= self.room, "{length} bytes are too many");
        self.front = !self.front;
        let skipped = if self.front { 0 } else { self.room - length };
        // SAFETY: these bytes are in the open pages, and are lent as long as `self` is.
        let lent = unsafe { slice::from_raw_parts_mut(self.mapped.add(PAGE + skipped), length) };
        lent.copy_from_slice(bytes);
        lent
    }
}

impl Drop for Guarded {
    fn drop(&mut self) {
        // SAFETY: the whole mapping, which nothing borrows any more.
        unsafe { munmap(self.mapped.cast(), self.room + 2 * PAGE) };
    }
}
