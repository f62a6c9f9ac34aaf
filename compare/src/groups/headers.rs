//! The header written and read, and its check, against the source's header.rs, with document 01's causes on top.

use crate::oracle::phy::frame::{DataMode, Header, LAYOUTS, crc16, header_bits, parse_header};
use crate::probes::headers::{self, BITS, Numbers};
use crate::report::Tally;
use crate::rng::Rng;

type Bits = [u8; BITS];

const INFO: usize = 32;
/// Numbers that name no layout.
const NO_LAYOUTS: [u32; 5] = [9, 10, 255, 256, u32::MAX];

// ---- the check

pub fn compare_crc() -> Tally {
    let mut t = Tally::new("crc16");
    let mut rng = Rng::new(110);
    let digits: Vec<u8> = b"123456789".iter().flat_map(|b| (0..8).rev().map(move |i| b >> i & 1)).collect();
    t.same("the bit 0", &[], headers::crc16(&[0]) as u32, 0xEFDF);
    t.same("123456789", &[], headers::crc16(&digits) as u32, 0x29B1);
    for n in 0..200_000u64 {
        let length = rng.between(0, 200) as usize;
        let most = if n % 2 == 0 { 2 } else { 256 };
        let bits: Vec<u8> = (0..length).map(|_| rng.between(0, most) as u8).collect();
        t.same("crc16", &[n, length as u64], headers::crc16(&bits) as u32, crc16(&bits) as u32);
    }
    t
}

// ---- written

pub fn compare_written() -> Tally {
    let mut t = Tally::new("header_bits");
    let mut rng = Rng::new(111);
    for layout in 0..LAYOUTS.len() as u32 {
        for fields in 0..4 << 14 {
            write(&mut t, &mut rng, data(fields, fields as u16 >> 4), layout);
            write(&mut t, &mut rng, only(fields as u16, fields as u16 ^ 0x5A5A), layout);
        }
    }
    for n in 0..1_000_000u64 {
        let h = if n % 2 == 0 { any(&mut rng) } else { nearly(&mut rng) };
        let layout = rng.between(0, 9) as u32;
        write(&mut t, &mut rng, h, layout);
    }
    for layout in NO_LAYOUTS {
        for _ in 0..1000 {
            let h = nearly(&mut rng);
            write(&mut t, &mut rng, h, layout);
        }
    }
    t
}

/// Into an array with other contents, which a refusal keeps.
fn write(t: &mut Tally, rng: &mut Rng, h: Header, layout: u32) {
    let old: Bits = std::array::from_fn(|_| rng.bits32() as u8);
    let mut ours = old;
    let cause = headers::header_bits(&h, layout, &mut ours);
    let expected = if layout > 8 {
        1
    } else if !accepted(&h) {
        10
    } else {
        0
    };
    let bits = if expected == 0 { header_bits(&h, LAYOUTS[layout as usize]) } else { old };
    let args = [layout as u64, h.constellation as u64, h.nsym as u64, h.user as u64, h.extra as u64];
    t.same("cause", &args, cause, expected);
    t.same("written", &args, ours == bits, true);
}

/// Document 01, part 11.
fn accepted(h: &Header) -> bool {
    let narrow = h.constellation <= 3 && h.nsym <= 1023 && h.mode.gain_code <= 3;
    let kind =
        if h.header_only() { h.constellation == 0 && !h.sparse && h.mode == DataMode::PLAIN } else { h.extra == 0 };
    narrow && kind
}

/// Constellation, nsym, sparse, spread and gain code out of 16 bits: all of them, and nsym 0 besides.
fn data(fields: u32, user: u16) -> Header {
    Header {
        constellation: (fields >> 14) as u8,
        nsym: (fields >> 4 & 1023) as u16,
        user,
        extra: 0,
        sparse: fields & 1 == 1,
        mode: DataMode { spread: fields >> 1 & 1 == 1, gain_code: (fields >> 2 & 3) as u8 },
    }
}

fn only(extra: u16, user: u16) -> Header {
    Header { constellation: 0, nsym: 0, user, extra, sparse: false, mode: DataMode::PLAIN }
}

fn any(rng: &mut Rng) -> Header {
    Header {
        constellation: rng.bits32() as u8,
        nsym: rng.bits32() as u16,
        user: rng.bits32() as u16,
        extra: rng.bits32() as u16,
        sparse: rng.bits32() & 1 == 1,
        mode: DataMode { spread: rng.bits32() & 1 == 1, gain_code: rng.bits32() as u8 },
    }
}

/// Fields at the edges of what is accepted.
fn nearly(rng: &mut Rng) -> Header {
    Header {
        constellation: rng.pick(&[0, 0, 0, 1, 3, 4]),
        nsym: rng.pick(&[0, 0, 1, 2, 1022, 1023, 1024, 65535]),
        extra: rng.pick(&[0, 0, 1, 16, 65535]),
        sparse: rng.between(0, 4) == 0,
        mode: DataMode { spread: rng.between(0, 4) == 0, gain_code: rng.pick(&[0, 0, 1, 3, 4]) },
        ..any(rng)
    }
}

// ---- read

pub fn compare_parsed() -> Tally {
    let mut t = Tally::new("parse_header");
    let mut rng = Rng::new(112);
    for layout in 0..LAYOUTS.len() as u32 {
        for _ in 0..20 {
            for h in sample(&mut rng) {
                damaged(&mut t, &mut rng, &header_bits(&h, LAYOUTS[layout as usize]), layout);
            }
        }
        for _ in 0..100_000 {
            random(&mut t, &mut rng, layout);
        }
    }
    t
}

/// A header of each kind.
fn sample(rng: &mut Rng) -> [Header; 2] {
    let nsym = rng.between(1, 1024) as u32;
    [data(rng.between(0, 4) as u32 * 16384 + nsym * 16 + rng.between(0, 16) as u32, 77), only(rng.bits32() as u16, 78)]
}

/// A header as it is, with every bit and every two bits altered, many more sets of bits, and bytes that are no bits.
fn damaged(t: &mut Tally, rng: &mut Rng, whole: &Bits, layout: u32) {
    parse(t, rng, whole, layout);
    for i in 0..BITS {
        for j in i..BITS {
            let mut b = *whole;
            b[i] ^= 1;
            if j > i {
                b[j] ^= 1;
            }
            parse(t, rng, &b, layout);
        }
        let mut b = *whole;
        b[i] = rng.between(2, 256) as u8;
        parse(t, rng, &b, layout);
        b[i] = whole[i] + 2;
        parse(t, rng, &b, layout);
    }
    for _ in 0..500 {
        let mask = rng.bits64();
        let b: Bits = std::array::from_fn(|i| whole[i] ^ (mask >> i & 1) as u8);
        parse(t, rng, &b, layout);
    }
    for other in (0..9).chain(NO_LAYOUTS) {
        parse(t, rng, whole, other);
    }
}

/// Any bits; any information with a check that fits, nsym 0 now and then; any bytes.
fn random(t: &mut Tally, rng: &mut Rng, layout: u32) {
    let word = rng.bits64();
    let mut b: Bits = std::array::from_fn(|i| (word >> i & 1) as u8);
    parse(t, rng, &b, layout);
    if word >> 60 == 0 {
        b[2..12].fill(0);
    }
    let l = LAYOUTS[layout as usize];
    for mask in [l.crc_data, l.crc_ho] {
        let check = crc16(&b[..INFO]) ^ mask;
        for i in 0..16 {
            b[INFO + i] = (check >> (15 - i) & 1) as u8;
        }
        parse(t, rng, &b, layout);
    }
    b = std::array::from_fn(|_| rng.bits32() as u8);
    parse(t, rng, &b, layout);
}

fn parse(t: &mut Tally, rng: &mut Rng, bits: &Bits, layout: u32) {
    let old: Numbers = std::array::from_fn(|_| rng.bits32());
    let mut ours = old;
    let cause = headers::parse_header(bits, layout, &mut ours);
    let (expected, numbers) = match expected(bits, layout) {
        Ok(h) => (0, numbers(&h)),
        Err(cause) => (cause, old),
    };
    let args = [layout as u64, packed(bits)];
    t.same("cause", &args, cause, expected);
    t.same("fields", &args, ours == numbers, true);
}

fn expected(bits: &Bits, layout: u32) -> Result<Header, u32> {
    if layout > 8 {
        return Err(1);
    }
    if bits.iter().any(|&b| b > 1) {
        return Err(10);
    }
    let l = LAYOUTS[layout as usize];
    let check = bits[INFO..].iter().fold(0, |v, &b| v << 1 | b as u16);
    // The source says None to both of the last two causes.
    let none = if check == crc16(&bits[..INFO]) ^ l.crc_data { 9 } else { 8 };
    parse_header(bits, l).ok_or(none)
}

fn numbers(h: &Header) -> Numbers {
    let (sparse, spread) = (h.sparse as u32, h.mode.spread as u32);
    let kind = h.header_only() as u32;
    let gain_code = h.mode.gain_code as u32;
    [kind, h.constellation as u32, h.nsym as u32, h.user as u32, h.extra as u32, sparse, spread, gain_code]
}

/// To show: the lowest bit of each byte.
fn packed(bits: &Bits) -> u64 {
    bits.iter().fold(0, |v, &b| v << 1 | (b & 1) as u64)
}
