//! The exported functions as they are, on any slices: `include/heirs.h` has the same for C. Each gives a length, or -(refusal × 2^32 + place).

// SAFETY: the library has these functions with just these types; each slice is a pointer and then its length.
#[link(name = "exports", kind = "static")]
unsafe extern "C" {
    fn heirs_open(memory: *mut u32, words: usize, answer: *mut u8, bytes: usize, limit: u32) -> i64;
    fn heirs_call(memory: *mut u32, words: usize, row: *const u8, length: usize, answer: *mut u8, bytes: usize) -> i64;
    fn heirs_call_by_parts(memory: *mut u32, words: usize, row: *const u8, length: usize, answer: *mut u8, bytes: usize) -> i64;
    fn heirs_check(memory: *const u32, words: usize, answer: *const u8, bytes: usize) -> i64;
}

/// Opens a register for so many persons: 0, or a refusal.
pub fn open(memory: &mut [u32], answer: &mut [u8], limit: u32) -> i64 {
    // SAFETY: pointers and lengths are those of slices that nothing else refers to; the function asks nothing of what they hold.
    unsafe { heirs_open(memory.as_mut_ptr(), memory.len(), answer.as_mut_ptr(), answer.len(), limit) }
}

/// Answers a row of bytes: the length of the answer, or a refusal.
pub fn call(memory: &mut [u32], row: &[u8], answer: &mut [u8]) -> i64 {
    // SAFETY: as for `open`.
    unsafe { heirs_call(memory.as_mut_ptr(), memory.len(), row.as_ptr(), row.len(), answer.as_mut_ptr(), answer.len()) }
}

/// The same, with estates worked out part by part down every way: for comparison.
pub fn call_by_parts(memory: &mut [u32], row: &[u8], answer: &mut [u8]) -> i64 {
    // SAFETY: as for `open`.
    unsafe { heirs_call_by_parts(memory.as_mut_ptr(), memory.len(), row.as_ptr(), row.len(), answer.as_mut_ptr(), answer.len()) }
}

/// Whether words hold a register with bytes enough for its answers: how many persons there are, or a refusal.
pub fn check(memory: &[u32], answer: &[u8]) -> i64 {
    // SAFETY: as for `open`; nothing is written.
    unsafe { heirs_check(memory.as_ptr(), memory.len(), answer.as_ptr(), answer.len()) }
}
