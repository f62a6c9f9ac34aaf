//! Cases with their expected outcomes in a file, so that the calls can run by themselves under a memory checker.

use std::fs;

use crate::report::{self, Tally};

use super::counts::Counts;
use super::held::{self, Outcome};
use super::kinds::Case;
use super::run;

const SEED: u64 = 3;

/// Makes `count` cases and answers them by the oracle.
pub fn write(count: u64, file: &str) -> std::io::Result<()> {
    let (mut bytes, mut counts) = (Vec::new(), Counts::default());
    for i in 0..count {
        let (kind, c) = run::case(SEED, i);
        let o = held::expected(&c);
        counts.note(kind, &c.record, o.both.0, &o.both.1);
        for number in [o.alone.0, o.both.0, o.bits as u32] {
            bytes.extend(number.to_be_bytes());
        }
        for list in [&c.record, &c.out, &c.channel, &o.alone.1, &o.both.1, &o.both.2] {
            bytes.extend((list.len() as u32).to_be_bytes());
            bytes.extend(list);
        }
    }
    println!("{count} records");
    counts.print();
    fs::write(file, bytes)
}

/// Makes the calls and compares. No oracle runs here.
pub fn call(file: &str) -> std::io::Result<bool> {
    let bytes = fs::read(file)?;
    let mut left = &bytes[..];
    let mut t = Tally::new("records called");
    let mut i = 0;
    while !left.is_empty() {
        let numbers = [word(&mut left), word(&mut left), word(&mut left)];
        let mut next = || list(&mut left);
        let c = Case { record: next(), out: next(), channel: next() };
        let expected =
            Outcome { alone: (numbers[0], next()), both: (numbers[1], next(), next()), bits: numbers[2] as usize };
        held::compare(&mut t, &[i], &held::called(&c), &expected);
        i += 1;
    }
    println!("{i} records called");
    Ok(report::total(&[t]))
}

fn word(left: &mut &[u8]) -> u32 {
    let (word, rest) = left.split_first_chunk().expect("four bytes");
    *left = rest;
    u32::from_be_bytes(*word)
}

fn list(left: &mut &[u8]) -> Vec<u8> {
    let n = word(left) as usize;
    let (list, rest) = left.split_at(n);
    *left = rest;
    list.to_vec()
}
