//! Stored answers: lines `CC AAAAAAAAAAAAAAAA BBBBBBBBBBBBBBBB RRRRRRRRRRRRRRRR` of function
//! code, two arguments' bits (0 where unused) and the answer's bits, in hexadecimal.

#[cfg(ion_hf)]
mod expected;
#[cfg(ion_hf)]
mod list;
mod probed;

use std::fs;

use crate::report::Tally;

/// Where the repository keeps them.
const FILE: &str = concat!(env!("CARGO_MANIFEST_DIR"), "/../crates/vectors/stdin");

pub const NARROW: u8 = 0x01;
pub const SQRT32: u8 = 0x02;
pub const SQRT64: u8 = 0x03;
pub const MAX32: u8 = 0x04;
pub const MAX64: u8 = 0x05;
pub const EXP: u8 = 0x06;
pub const LN: u8 = 0x07;
pub const LN_1P: u8 = 0x08;
pub const SIN: u8 = 0x09;
pub const COS: u8 = 0x0A;
pub const GAIN: u8 = 0x0B;
pub const MIX32: u8 = 0x0C;
pub const SCRAMBLE: u8 = 0x0D;
pub const STEP: u8 = 0x0E;
pub const SLOT: u8 = 0x0F;
/// Clamped to -arg2..arg2.
pub const CLAMP32: u8 = 0x10;
pub const ABS64: u8 = 0x11;
pub const IS_FINITE32: u8 = 0x12;
/// The value that bit arg1 of prior arg2 puts into its slot.
pub const SIGNED: u8 = 0x13;

/// The fixed list, answered by the source and the hardware.
#[cfg(ion_hf)]
pub fn lines() -> impl Iterator<Item = String> {
    let line = |(code, a, b)| format!("{code:02X} {a:016X} {b:016X} {:016X}", expected::answer(code, a, b));
    list::questions().into_iter().map(line)
}

/// Whether the kept list is the one that `lines` gives today.
#[cfg(ion_hf)]
pub fn kept() -> Option<Tally> {
    let text = fs::read_to_string(FILE).ok()?;
    let mut t = Tally::new("stored list");
    let expected: Vec<String> = lines().collect();
    t.same("lines", &[], text.lines().count(), expected.len());
    for (i, (line, expected)) in text.lines().zip(&expected).enumerate() {
        t.same("line as written", &[i as u64 + 1], line == expected, true);
    }
    Some(t)
}

/// The probes' answers against the kept ones, where there are any.
pub fn replay() -> Option<Tally> {
    let text = fs::read_to_string(FILE).ok()?;
    let mut t = Tally::new("stored answers");
    for (i, line) in text.lines().enumerate() {
        let Some((code, [a, b, answer])) = parse(line) else {
            t.unreadable(i + 1, line);
            continue;
        };
        match probed::answer(code, a, b) {
            Some(ours) => t.same("code and arguments", &[code as u64, a, b], ours, answer),
            None => t.unreadable(i + 1, line),
        }
    }
    Some(t)
}

fn parse(line: &str) -> Option<(u8, [u64; 3])> {
    let mut words = line.split(' ');
    let code = u8::from_str_radix(words.next()?, 16).ok()?;
    let mut numbers = [0; 3];
    for n in &mut numbers {
        *n = u64::from_str_radix(words.next()?, 16).ok()?;
    }
    (line.len() == 53 && words.next().is_none()).then_some((code, numbers))
}
