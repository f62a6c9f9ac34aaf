//! How many records of each kind there were, and how they were answered.

use std::collections::{BTreeMap, BTreeSet};

use super::shapes::SHAPES;

#[derive(Default)]
pub struct Counts {
    kinds: BTreeMap<&'static str, u64>,
    returned: BTreeMap<u32, u64>,
    layouts: BTreeMap<String, u64>,
    /// Layout and constellation, pattern and spreading of those accepted.
    shapes: BTreeSet<(u8, u8)>,
    fallback: u64,
    spoilt: u64,
}

impl Counts {
    /// A case of the kind, the number that `refine_record_channel` must return, and what it wrote.
    pub fn note(&mut self, kind: &'static str, record: &[u8], number: u32, out: &[u8]) {
        *self.kinds.entry(kind).or_default() += 1;
        *self.returned.entry(number).or_default() += 1;
        if number == 0 {
            *self.layouts.entry(format!("layout {}", record[0] >> 4)).or_default() += 1;
            self.shapes.insert((record[0] >> 2, record[2] >> 6));
            self.fallback += u64::from(out[..2] == [3, 3]);
            self.spoilt += u64::from(out[6..10] != [0; 4]);
        }
    }

    pub fn add(&mut self, other: Counts) {
        other.kinds.into_iter().for_each(|(k, n)| *self.kinds.entry(k).or_default() += n);
        other.returned.into_iter().for_each(|(k, n)| *self.returned.entry(k).or_default() += n);
        other.layouts.into_iter().for_each(|(k, n)| *self.layouts.entry(k).or_default() += n);
        self.shapes.extend(other.shapes);
        self.fallback += other.fallback;
        self.spoilt += other.spoilt;
    }

    /// Every number that a record can be answered with, and every shape.
    pub fn all_met(&self) -> bool {
        [0, 1, 3, 6, 7, 12].iter().all(|n| self.returned.contains_key(n))
            && self.shapes.len() == SHAPES
            && self.fallback > 0
            && self.spoilt > 0
    }

    pub fn print(&self) {
        let line = |list: Vec<String>| println!("  {}", list.join(", "));
        line(self.kinds.iter().map(|(k, n)| format!("{k} {n}")).collect());
        line(
            self.returned
                .iter()
                .map(|(k, n)| if *k == 0 { format!("accepted {n}") } else { format!("refused {k}: {n}") })
                .collect(),
        );
        line(self.layouts.iter().map(|(k, n)| format!("{k}: {n}")).collect());
        println!(
            "  shapes {} of {SHAPES}, fallback model {}, with spoilt likelihoods {}",
            self.shapes.len(),
            self.fallback,
            self.spoilt
        );
    }
}
