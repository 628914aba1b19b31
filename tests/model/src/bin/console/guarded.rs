//! Octets between two pages that must not be touched: a read or a write outside them ends the program.

use std::ffi::{c_int, c_long, c_void};
use std::ptr::null_mut;

const SPACE: usize = 16384;
const PAGE: usize = 4096;

const NO_ACCESS: c_int = 0;
const READ_AND_WRITE: c_int = 1 | 2;
const PRIVATE_ANONYMOUS: c_int = 0x02 | 0x20;

extern "C" {
    fn mmap(at: *mut c_void, length: usize, access: c_int, flags: c_int, file: c_int, offset: c_long) -> *mut c_void;
    fn mprotect(at: *mut c_void, length: usize, access: c_int) -> c_int;
}

/// Room for octets that are lent at the front page or at the back page.
pub struct Guarded {
    space: *mut u8,
}

impl Guarded {
    pub fn new() -> Guarded {
        let all = unsafe { mmap(null_mut(), SPACE + 2 * PAGE, NO_ACCESS, PRIVATE_ANONYMOUS, -1, 0) };
        assert!(all as isize != -1, "no memory");
        let space = unsafe { all.add(PAGE) };
        assert_eq!(unsafe { mprotect(space, SPACE, READ_AND_WRITE) }, 0, "no pages");
        Guarded { space: space.cast() }
    }

    /// Copies octets in, so that they begin after the front page or end at the back page.
    pub fn lend(&mut self, octets: &[u8], back: bool) -> &mut [u8] {
        assert!(octets.len() <= SPACE, "over {SPACE} octets");
        let from = if back { SPACE - octets.len() } else { 0 };
        // The space is this value's own, and the octets stand within it.
        let lent = unsafe { std::slice::from_raw_parts_mut(self.space.add(from), octets.len()) };
        lent.copy_from_slice(octets);
        lent
    }
}
