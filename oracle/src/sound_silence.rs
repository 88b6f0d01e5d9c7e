//! Zeros for the longest files, of which there are more than memory might hold: pages that the system lends and that are never touched.

use std::ffi::c_void;
use std::ptr::null_mut;

const READ: i32 = 1;
const PRIVATE_ANONYMOUS: i32 = 0x22;

unsafe extern "C" {
    fn mmap(
        at: *mut c_void,
        length: usize,
        protection: i32,
        flags: i32,
        file: i32,
        offset: i64,
    ) -> *mut c_void;
}

/// So many zeros, or none where the system refuses. They are kept to the end of the run.
pub fn zeros(count: usize) -> Option<&'static [f64]> {
    // SAFETY: new pages at any place, which can be read, and of which nothing else knows.
    unsafe {
        let pages = mmap(null_mut(), 8 * count, READ, PRIVATE_ANONYMOUS, -1, 0);
        let refused = pages as isize == -1;
        (!refused).then(|| std::slice::from_raw_parts(pages.cast(), count))
    }
}
