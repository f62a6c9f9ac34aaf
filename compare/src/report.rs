//! Counting comparisons and showing the first differences.

use crate::bits::Bits;

/// How many differences of a group are shown.
const SHOWN: usize = 5;

pub struct Tally {
    pub name: &'static str,
    pub compared: u64,
    pub different: u64,
    shown: Vec<String>,
}

impl Tally {
    pub fn new(name: &'static str) -> Tally {
        Tally { name, compared: 0, different: 0, shown: Vec::new() }
    }

    /// Counts one comparison of ours with the expected answer to the arguments' bits.
    #[inline]
    pub fn same<T: Bits>(&mut self, what: &str, args: &[u64], ours: T, expected: T) {
        self.compared += 1;
        if ours.bits() != expected.bits() {
            self.differs(what, args, ours.bits(), expected.bits());
        }
    }

    /// A probe of one argument over many.
    pub fn each<A: Bits, R: Bits>(
        &mut self,
        what: &str,
        args: impl IntoIterator<Item = A>,
        ours: extern "C" fn(A) -> R,
        expected: impl Fn(A) -> R,
    ) {
        for a in args {
            self.same(what, &[a.bits()], ours(a), expected(a));
        }
    }

    /// Counts every byte of two lists of one length.
    pub fn bytes(&mut self, what: &str, args: &[u64], ours: &[u8], expected: &[u8]) {
        self.same(what, args, ours.len(), expected.len());
        if ours == expected {
            self.compared += ours.len() as u64;
            return;
        }
        for (i, (&o, &e)) in ours.iter().zip(expected).enumerate() {
            let args: Vec<u64> = args.iter().copied().chain([i as u64]).collect();
            self.same(what, &args, o as u32, e as u32);
        }
    }

    /// Takes in what another thread counted.
    pub fn add(&mut self, other: Tally) {
        self.compared += other.compared;
        self.different += other.different;
        self.shown.extend(other.shown);
        self.shown.truncate(SHOWN);
    }

    #[cold]
    fn differs(&mut self, what: &str, args: &[u64], ours: u64, expected: u64) {
        self.different += 1;
        if self.shown.len() < SHOWN {
            self.shown.push(format!("  {what} {args:X?}: ours {ours:X}, expected {expected:X}"));
        }
    }

    /// A stored line that is no question and answer counts as a difference.
    pub fn unreadable(&mut self, number: usize, line: &str) {
        self.compared += 1;
        self.different += 1;
        if self.shown.len() < SHOWN {
            self.shown.push(format!("  line {number} can't be read: {line:?}"));
        }
    }

    pub fn print(&self) {
        println!("{:<28} {:>12} compared {:>9} different", self.name, self.compared, self.different);
        for line in &self.shown {
            println!("{line}");
        }
    }
}

/// The last line. True when something was compared and nothing differs.
pub fn total(tallies: &[Tally]) -> bool {
    let compared: u64 = tallies.iter().map(|t| t.compared).sum();
    let different: u64 = tallies.iter().map(|t| t.different).sum();
    println!("{:<28} {compared:>12} compared {different:>9} different", "total");
    compared > 0 && different == 0
}
