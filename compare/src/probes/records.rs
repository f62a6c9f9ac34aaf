//! The C functions on one burst record.

unsafe extern "C" {
    fn refine_record(record: *const u8, record_len: usize, out: *mut u8, out_len: usize) -> u32;
    fn refine_record_channel(
        record: *const u8,
        record_len: usize,
        out: *mut u8,
        out_len: usize,
        channel: *mut u8,
        channel_len: usize,
    ) -> u32;
    fn record_bits(record: *const u8, record_len: usize) -> usize;
}

/// 0 when accepted, else the refusal.
pub fn refine(record: &[u8], out: &mut [u8]) -> u32 {
    // SAFETY: both pointers are good for their lengths during the call.
    unsafe { refine_record(record.as_ptr(), record.len(), out.as_mut_ptr(), out.len()) }
}

/// The same, with each cell's estimate and error.
pub fn refine_channel(record: &[u8], out: &mut [u8], channel: &mut [u8]) -> u32 {
    let (o, c) = ((out.as_mut_ptr(), out.len()), (channel.as_mut_ptr(), channel.len()));
    // SAFETY: the pointers are good for their lengths during the call.
    unsafe { refine_record_channel(record.as_ptr(), record.len(), o.0, o.1, c.0, c.1) }
}

/// nbits of a record whose shape is accepted, else 0.
pub fn bits(record: &[u8]) -> usize {
    // SAFETY: the pointer is good for its length during the call.
    unsafe { record_bits(record.as_ptr(), record.len()) }
}
