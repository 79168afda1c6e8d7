//! Memory to lend: a list stands right before, or right behind, a page that may not be touched, so that a byte read or written outside it ends the run.
use std::ffi::{c_int, c_long, c_void};
use std::ptr::null_mut;

const PAGE: usize = 4096;
const NO_ACCESS: c_int = 0;
const READ_WRITE: c_int = 3;
/// Private memory without a file, on Linux.
const PRIVATE_ANONYMOUS: c_int = 0x22;

unsafe extern "C" {
    fn mmap(at: *mut c_void, len: usize, access: c_int, flags: c_int, file: c_int, offset: c_long) -> *mut c_void;
    fn mprotect(at: *mut c_void, len: usize, access: c_int) -> c_int;
    fn munmap(at: *mut c_void, len: usize) -> c_int;
}

/// Pages that may be used between two that may not.
pub struct Room {
    start: *mut u8,
    bytes: usize,
    at_end: bool,
}

impl Room {
    pub fn new(bytes: usize) -> Room {
        let bytes = bytes.next_multiple_of(PAGE).max(PAGE);
        // SAFETY: new memory, of which nothing else knows; only the inner pages may be used.
        unsafe {
            let start = mmap(null_mut(), bytes + 2 * PAGE, NO_ACCESS, PRIVATE_ANONYMOUS, -1, 0).cast::<u8>();
            assert!(start as isize != -1, "no memory");
            assert!(mprotect(start.add(PAGE).cast(), bytes, READ_WRITE) == 0, "no memory");
            Room { start: start.add(PAGE), bytes, at_end: false }
        }
    }

    /// A copy of the list, by turns at the start and at the end of the room.
    pub fn lend<T: Copy>(&mut self, list: &[T]) -> &mut [T] {
        let bytes = size_of_val(list);
        if bytes > self.bytes {
            *self = Room::new(2 * bytes);
        }
        self.at_end = !self.at_end;
        let offset = if self.at_end { self.bytes - bytes } else { 0 };
        // SAFETY: the room is as long as the list at least, its ends are aligned to pages, and it is lent only once at a time.
        unsafe {
            let at = self.start.add(offset).cast::<T>();
            std::ptr::copy_nonoverlapping(list.as_ptr(), at, list.len());
            std::slice::from_raw_parts_mut(at, list.len())
        }
    }
}

impl Drop for Room {
    fn drop(&mut self) {
        // SAFETY: the memory of `new`, which ends with its room.
        unsafe { munmap(self.start.sub(PAGE).cast(), self.bytes + 2 * PAGE) };
    }
}
