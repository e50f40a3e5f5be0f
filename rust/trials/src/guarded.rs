//! Memory between two pages that may not be touched: a read or a write outside ends the process.

use std::ffi::{c_int, c_void};
use std::ptr::null_mut;

unsafe extern "C" {
    fn mmap(
        at: *mut c_void,
        len: usize,
        rights: c_int,
        kind: c_int,
        file: c_int,
        from: i64,
    ) -> *mut c_void;
    fn mprotect(at: *mut c_void, len: usize, rights: c_int) -> c_int;
    fn munmap(at: *mut c_void, len: usize) -> c_int;
}

/// As Linux has them.
const NOTHING: c_int = 0;
const READ_AND_WRITE: c_int = 3;
const PRIVATE_AND_ANONYMOUS: c_int = 0x22;
/// No machine has larger pages.
const PAGE: usize = 65_536;

pub struct Guarded {
    start: *mut u8,
    most: usize,
}

impl Guarded {
    /// Room for so many bytes; all of it is 0.
    pub fn new(most: usize) -> Result<Guarded, String> {
        let most = most.next_multiple_of(PAGE);
        // SAFETY: new memory at a place that the system chooses; what is made writable lies in it.
        unsafe {
            let all = mmap(null_mut(), most + 2 * PAGE, NOTHING, PRIVATE_AND_ANONYMOUS, -1, 0)
                .cast::<u8>();
            if all.addr() == usize::MAX {
                return Err("no memory with guards".to_string());
            }
            let start = all.add(PAGE);
            match mprotect(start.cast(), most, READ_AND_WRITE) {
                0 => Ok(Guarded { start, most }),
                _ => Err("the memory with guards stays closed".to_string()),
            }
        }
    }

    /// So many bytes right behind the first guard, or right before the second.
    pub fn bytes(&mut self, len: usize, at_end: bool) -> &mut [u8] {
        let from = if at_end { self.most - len } else { 0 };
        assert!(from + len <= self.most);
        // SAFETY: inside the memory, and borrowed as long as this value is.
        unsafe { std::slice::from_raw_parts_mut(self.start.add(from), len) }
    }

    /// The same of numbers.
    pub fn numbers(&mut self, len: usize, at_end: bool) -> &mut [u64] {
        let bytes = self.bytes(8 * len, at_end).as_mut_ptr();
        // SAFETY: pages start and end at a multiple of 8, and any bytes are a number.
        unsafe { std::slice::from_raw_parts_mut(bytes.cast(), len) }
    }
}

impl Drop for Guarded {
    fn drop(&mut self) {
        // SAFETY: this is what was mapped, and nothing borrows it any more. A failure leaves it be.
        unsafe { munmap(self.start.sub(PAGE).cast(), self.most + 2 * PAGE) };
    }
}
