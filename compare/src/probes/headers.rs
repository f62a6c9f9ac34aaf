//! The header: its check, its 48 bits, and the header that 48 bits hold.

use crate::oracle::phy::frame::Header;

pub const BITS: usize = 48;
/// The kind (0 data, 1 header-only), constellation, nsym, user, extra, sparse, spread and gain code.
pub type Numbers = [u32; 8];

unsafe extern "C" {
    fn probe_crc16(bits: *const u8, bits_len: usize) -> u16;
    safe fn probe_header_bits(
        constellation: u8,
        nsym: u16,
        user: u16,
        extra: u16,
        sparse: bool,
        spread: bool,
        gain_code: u8,
        layout: u32,
        out: &mut [u8; BITS],
    ) -> u32;
    #[link_name = "probe_parse_header"]
    pub safe fn parse_header(bits: &[u8; BITS], layout: u32, out: &mut Numbers) -> u32;
}

pub fn crc16(bits: &[u8]) -> u16 {
    // SAFETY: the pointer is good for the length passed with it during the call.
    unsafe { probe_crc16(bits.as_ptr(), bits.len()) }
}

/// 0, or the refusal.
pub fn header_bits(h: &Header, layout: u32, out: &mut [u8; BITS]) -> u32 {
    let (spread, gain_code) = (h.mode.spread, h.mode.gain_code);
    probe_header_bits(h.constellation, h.nsym, h.user, h.extra, h.sparse, spread, gain_code, layout, out)
}
