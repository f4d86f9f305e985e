//! The call that compares two lists.

use std::ffi::c_uint;

use super::lending::Lending;

unsafe extern "C" {
    fn pt_compare(
        first: *const u8,
        first_length: usize,
        second: *const u8,
        second_length: usize,
        row: *mut c_uint,
        row_length: usize,
        answer: *mut c_uint,
    );
}

pub fn compare(
    first: &[u8],
    second: &[u8],
    row: &mut [u32],
    answer: &mut [u32; 8],
    lending: &Lending,
) {
    let row_length = row.len();
    // SAFETY: the pointers cover their lengths, or are null where a length is
    // 0; row and answer overlap nothing, the two lists may be one range. The
    // answer holds eight numbers.
    unsafe {
        pt_compare(
            lending.pointer(first),
            first.len(),
            lending.pointer(second),
            second.len(),
            lending.when_empty.pointer_mut(row),
            row_length,
            answer.as_mut_ptr(),
        );
    }
}
