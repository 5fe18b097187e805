//! The library's C functions on byte slices: all `unsafe` of this crate is here.
//!
//! Each function gives the bare number that `include/flamepocket.h` lists for it. Any bytes and any
//! lengths may be given: the library promises to check them itself, and where it refuses it leaves
//! image and answer as they were.
//!
//! Why every call below is sound: the library reads and writes only within the areas it is handed,
//! each a pointer with its length, during the call alone, and it keeps no state, so any thread may
//! call. A slice is such an area: it is valid for its length, even if that is 0, a `&mut` one overlaps
//! no other, and bytes have no alignment and no forbidden values.

use std::os::raw::c_uchar;

extern "C" {
    fn flamepocket_record_length() -> usize;
    fn flamepocket_factory(
        image: *mut c_uchar,
        image_length: usize,
        n: u64,
        msid: *const c_uchar,
        msid_length: usize,
    ) -> usize;
    fn flamepocket_sound(image: *const c_uchar, image_length: usize) -> usize;
    fn flamepocket_command(
        image: *mut c_uchar,
        image_length: usize,
        request: *const c_uchar,
        request_length: usize,
        answer: *mut c_uchar,
        answer_length: usize,
    ) -> usize;
    fn flamepocket_power_cycle(image: *mut c_uchar, image_length: usize) -> usize;
    fn flamepocket_tper_reset(image: *mut c_uchar, image_length: usize) -> usize;
    fn flamepocket_media(image: *const c_uchar, image_length: usize, write: u8, start: u64, count: u64) -> usize;
}

/// How many bytes an image has.
pub fn record_length() -> usize {
    // SAFETY: it takes nothing and touches no memory.
    unsafe { flamepocket_record_length() }
}

/// Makes the record of a new card: 0, or 1 where it is refused.
pub fn factory(image: &mut [u8], n: u64, msid: &[u8]) -> usize {
    // SAFETY: `image` is held alone for the call, and `msid` is only read.
    unsafe { flamepocket_factory(image.as_mut_ptr(), image.len(), n, msid.as_ptr(), msid.len()) }
}

/// 0 where the image is that of a sound record, else 1.
pub fn sound(image: &[u8]) -> usize {
    // SAFETY: `image` is only read.
    unsafe { flamepocket_sound(image.as_ptr(), image.len()) }
}

/// One request: the count of answer bytes, 60 or more, or a number from 1 to 6.
pub fn command(image: &mut [u8], request: &[u8], answer: &mut [u8]) -> usize {
    // SAFETY: `image` and `answer` are held alone for the call, so the three areas are apart; `request` is only read.
    unsafe {
        flamepocket_command(
            image.as_mut_ptr(),
            image.len(),
            request.as_ptr(),
            request.len(),
            answer.as_mut_ptr(),
            answer.len(),
        )
    }
}

/// A power cycle: 0 or 1.
pub fn power_cycle(image: &mut [u8]) -> usize {
    // SAFETY: `image` is held alone for the call.
    unsafe { flamepocket_power_cycle(image.as_mut_ptr(), image.len()) }
}

/// TPER_RESET: 0, 1 or 7.
pub fn tper_reset(image: &mut [u8]) -> usize {
    // SAFETY: `image` is held alone for the call.
    unsafe { flamepocket_tper_reset(image.as_mut_ptr(), image.len()) }
}

/// The ruling on a read or a write: 0 disk, 1 unsound, 2 shadow, 3 refused.
pub fn media(image: &[u8], write: bool, start: u64, count: u64) -> usize {
    // SAFETY: `image` is only read.
    unsafe { flamepocket_media(image.as_ptr(), image.len(), u8::from(write), start, count) }
}
