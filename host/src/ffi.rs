//! The C functions of the proved library, and the only unsafe code of this crate.
#![allow(unsafe_code)]

extern "C" {
    fn refine_record(record: *const u8, record_len: usize, out: *mut u8, out_len: usize) -> u32;
    fn refine_record_channel(
        record: *const u8,
        record_len: usize,
        out: *mut u8,
        out_len: usize,
        channel: *mut u8,
        channel_len: usize,
    ) -> u32;
    fn record_bits(record: *const u8, record_len: usize) -> usize;
}

/// 0 or the refusal's number; writes to `out` only where it gives 0.
pub fn refine(record: &[u8], out: &mut [u8]) -> u32 {
    // SAFETY: both pointers are good for their lengths, `out` is borrowed alone, and nothing is kept after the call.
    unsafe { refine_record(record.as_ptr(), record.len(), out.as_mut_ptr(), out.len()) }
}

/// The same, with the estimates to `channel`.
pub fn refine_with_channel(record: &[u8], out: &mut [u8], channel: &mut [u8]) -> u32 {
    // SAFETY: all pointers are good for their lengths, `out` and `channel` are borrowed alone, and nothing is kept.
    unsafe {
        refine_record_channel(
            record.as_ptr(),
            record.len(),
            out.as_mut_ptr(),
            out.len(),
            channel.as_mut_ptr(),
            channel.len(),
        )
    }
}

/// Bits of a record whose shape is accepted, else 0.
pub fn bits(record: &[u8]) -> usize {
    // SAFETY: the pointer is good for its length, and nothing is kept after the call.
    unsafe { record_bits(record.as_ptr(), record.len()) }
}
