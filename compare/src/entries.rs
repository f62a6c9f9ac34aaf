//! Stored records, as the program `replay` reads them: length of the record and of the answer in two bytes each, the number
//! returned in one, the record, and the answer where it was accepted.

use std::fs;

use crate::probes::records as probes;
use crate::report::Tally;

/// Where the repository keeps them.
pub const FILE: &str = concat!(env!("CARGO_MANIFEST_DIR"), "/../crates/replay/stdin");

/// The longest answer that a record's burst has.
const LONGEST_ANSWER: usize = 10 + 4 * 4086;
/// What the output holds before.
const OLD: u8 = 165;

pub struct Entry {
    pub number: u8,
    pub record: Vec<u8>,
    pub answer: Vec<u8>,
}

pub fn write(entries: &[Entry]) -> Vec<u8> {
    let length = |list: &[u8]| u16::try_from(list.len()).expect("two bytes hold it").to_be_bytes();
    let one = |e: &Entry| [&length(&e.record)[..], &length(&e.answer), &[e.number], &e.record, &e.answer].concat();
    entries.iter().flat_map(one).collect()
}

/// None when the bytes end inside an entry.
fn read(mut bytes: &[u8]) -> Option<Vec<Entry>> {
    let mut entries = Vec::new();
    while !bytes.is_empty() {
        let (head, rest) = bytes.split_at_checked(5)?;
        let length = |i: usize| u16::from_be_bytes([head[i], head[i + 1]]) as usize;
        let (record, rest) = rest.split_at_checked(length(0))?;
        let (answer, rest) = rest.split_at_checked(length(2))?;
        entries.push(Entry { number: head[4], record: record.to_vec(), answer: answer.to_vec() });
        bytes = rest;
    }
    Some(entries)
}

/// Each stored record through the library: the number, the answer, and the bytes past it as they were.
pub fn replay() -> Tally {
    let mut t = Tally::new("stored records");
    let bytes = fs::read(FILE).unwrap_or_default();
    let entries = read(&bytes).unwrap_or_default();
    t.same("stored records are there", &[], entries.len() >= 200, true);
    for (i, e) in entries.iter().enumerate() {
        let mut out = vec![OLD; LONGEST_ANSWER];
        let mut expected = out.clone();
        expected[..e.answer.len()].copy_from_slice(&e.answer);
        t.same("returned", &[i as u64], probes::refine(&e.record, &mut out), e.number as u32);
        t.bytes("output", &[i as u64], &out, &expected);
    }
    t
}
