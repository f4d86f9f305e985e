//! The call that translates a condition's text.

use std::ffi::c_uint;

use super::WhenEmpty;

unsafe extern "C" {
    fn pt_condition(
        text: *const u8,
        text_length: usize,
        out: *mut u8,
        out_length: usize,
        answer: *mut c_uint,
    );
}

pub fn condition(text: &[u8], out: &mut [u8], answer: &mut [u32; 8], when_empty: WhenEmpty) {
    let out_length = out.len();
    // SAFETY: the pointers cover their lengths, or are null where a length is
    // 0; the three parts don't overlap, and the answer holds eight numbers.
    unsafe {
        pt_condition(
            when_empty.pointer(text),
            text.len(),
            when_empty.pointer_mut(out),
            out_length,
            answer.as_mut_ptr(),
        );
    }
}
