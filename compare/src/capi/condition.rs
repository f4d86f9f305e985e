//! The call that evaluates an expression.

use std::ffi::c_uint;

use super::lending::Lending;

unsafe extern "C" {
    fn pt_evaluate(
        expression: *const u8,
        expression_length: usize,
        table: *const u8,
        table_length: usize,
        answer: *mut c_uint,
    );
}

pub fn evaluate(expression: &[u8], table: &[u8], answer: &mut [u32; 8], lending: &Lending) {
    // SAFETY: the pointers cover their lengths, or are null where a length is
    // 0; the answer overlaps nothing and holds eight numbers, what is only
    // read may be one range.
    unsafe {
        pt_evaluate(
            lending.pointer(expression),
            expression.len(),
            lending.pointer(table),
            table.len(),
            answer.as_mut_ptr(),
        );
    }
}
