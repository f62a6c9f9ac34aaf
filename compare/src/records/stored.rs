//! The list of stored records: the printed example, every shape, every damage, and the longest.

use std::fs;

use crate::entries::{self, Entry, FILE};
use crate::oracle::burst::Burst;
use crate::report::Tally;
use crate::rng::Rng;

use super::damage::{self, DAMAGES};
use super::draft::{Draft, Length, MOST, numbers};
use super::expected::answer;
use super::{kinds, shapes};

pub fn store() -> std::io::Result<()> {
    let list = list();
    let bytes = entries::write(&list);
    fs::create_dir_all(FILE.trim_end_matches("/stdin"))?;
    fs::write(FILE, &bytes)?;
    let refused = list.iter().filter(|e| e.number != 0).count();
    println!("{} records, {refused} of them refused, {} bytes", list.len(), bytes.len());
    Ok(())
}

/// Whether the repository keeps what the source answers.
pub fn kept() -> Tally {
    let mut t = Tally::new("records kept");
    t.bytes("stored byte", &[], &fs::read(FILE).unwrap_or_default(), &entries::write(&list()));
    t
}

fn list() -> Vec<Entry> {
    let mut rng = Rng::new(240);
    let mut records = vec![Draft::of(&Burst::plain(7, 0, 1)).bytes()];
    records.extend((0..shapes::SHAPES).map(|shape| of_shape(&mut rng, shape)));
    records.extend(damaged(&mut rng));
    records.extend(longest(&mut rng));
    records.extend([0, 1, 5, 6, 7, 60].map(|n| (0..n).map(|_| rng.bits32() as u8).collect()));
    records.into_iter().map(entry).collect()
}

fn entry(record: Vec<u8>) -> Entry {
    match answer(&record, |_| true) {
        Ok(a) => Entry { number: 0, record, answer: a.out },
        Err(n) => Entry { number: n as u8, record, answer: Vec::new() },
    }
}

/// One symbol, or two where that is short; the ways to fill it in turn.
fn of_shape(rng: &mut Rng, shape: usize) -> Vec<u8> {
    let mut b = shapes::burst(shape, if shape >= 4 * 16 { 1 + (shape % 2) as u16 } else { 1 });
    let fill = [kinds::ordinary, kinds::heard, kinds::extreme, kinds::any_finite, kinds::heard];
    fill[shape % 5](rng, &mut b);
    kinds::settle(rng, &mut b);
    Draft::of(&b).bytes()
}

/// Each cause that a record alone can have, and a few in pairs.
fn damaged(rng: &mut Rng) -> Vec<Vec<u8>> {
    let base = damage::trial(rng, shapes::burst(5 * 16, 1));
    let of_record: Vec<_> = DAMAGES.iter().filter(|d| d.1 != 6).collect();
    let one = |changes: &[&damage::Damage]| {
        let mut t = base.clone();
        changes.iter().for_each(|d| d.2(&mut t));
        t.draft.bytes()
    };
    let mut list: Vec<Vec<u8>> = of_record.iter().map(|d| one(&[d])).collect();
    list.extend((0..12).map(|_| one(&[rng.pick(&of_record), rng.pick(&of_record)])));
    list
}

/// 8,190 bytes, the most that a record can have; 8,192 and 8,193, which are turned away.
fn longest(rng: &mut Rng) -> Vec<Vec<u8>> {
    let mut b = shapes::burst(7 * 16, 60);
    kinds::heard(rng, &mut b);
    b.k = 5;
    b.prior.resize(MOST - (numbers(&b) - b.prior.len()), f32::NAN);
    let d = Draft::of(&b);
    [Length::Own, Length::More(2), Length::More(3)].map(|length| Draft { length, ..d.clone() }.bytes()).to_vec()
}
