//! Our reader, the C function of crate `reader`: all `unsafe` of this program is here.

use std::os::raw::c_uchar;

extern "C" {
    fn flamepocket_read_payload(bytes: *const c_uchar, length: usize, at: usize, words: *mut u64) -> usize;
}

/// The number of the payload that stands in `bytes` from `at` on and ends with them: 0 broken, 1 a call, 2 end of
/// session, 3 begin, 4 commit, 5 abandon. Of a call object, method and the place of its parameters are in `words`
/// afterwards; else they are as they were.
pub fn read_payload(bytes: &[u8], at: usize, words: &mut [u64; 3]) -> usize {
    // SAFETY: the function takes any bytes and any place. It reads within `bytes` and writes the three words alone,
    // which are held for the call, and keeps nothing.
    unsafe { flamepocket_read_payload(bytes.as_ptr(), bytes.len(), at, words.as_mut_ptr()) }
}
