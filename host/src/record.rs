//! Document 01's record of a burst, laid out and read.

use std::error::Error;
use std::fmt;
use std::ops::RangeInclusive;

use crate::words::{floats, word};
use crate::{Burst, Constellation, Layout, Refusal, MAX_RECORD};

/// Bytes of fields before the numbers.
const HEAD: usize = 6;

/// Why a burst has no record.
#[derive(Clone, Debug, PartialEq, Eq)]
pub enum BurstError {
    /// A field outside its range.
    Field {
        /// Which.
        field: &'static str,
        /// What it was set to.
        value: usize,
        /// What a record can hold.
        allowed: RangeInclusive<usize>,
    },
    /// A list of another length than the shape asks for.
    Count {
        /// Which.
        list: &'static str,
        /// The length that the shape asks for.
        expected: usize,
        /// The length given.
        found: usize,
    },
    /// A record of over [`MAX_RECORD`] bytes.
    TooLong {
        /// The bytes that it would have.
        bytes: usize,
    },
}

impl fmt::Display for BurstError {
    fn fmt(&self, f: &mut fmt::Formatter<'_>) -> fmt::Result {
        match self {
            BurstError::Field { field, value, allowed } => {
                write!(f, "{field} is {value}, not {} to {}", allowed.start(), allowed.end())
            }
            BurstError::Count { list, expected, found } => write!(f, "{list}: {found} given, {expected} needed"),
            BurstError::TooLong { bytes } => write!(f, "the record would have {bytes} bytes, over {MAX_RECORD}"),
        }
    }
}

impl Error for BurstError {}

impl Burst {
    /// The record.
    pub fn to_record(&self) -> Result<Vec<u8>, BurstError> {
        self.check_fields()?;
        let bytes = self.record_length();
        if bytes > MAX_RECORD {
            return Err(BurstError::TooLong { bytes });
        }
        let mut record = self.head().to_be_bytes()[8 - HEAD..].to_vec();
        let mut put = |number: f32| record.extend(number.to_be_bytes());
        [self.boost, self.pilot_gain, self.channel_power].into_iter().for_each(&mut put);
        list("carrier variances", &self.carrier_variances, 1.0, self.layout.carriers())?.into_iter().for_each(&mut put);
        list("cell variances", &self.cell_variances, 1.0, self.cells())?.into_iter().for_each(&mut put);
        list("grid", &self.grid, [0.0; 2], self.grid_cells())?.into_iter().flatten().for_each(&mut put);
        self.priors.iter().copied().for_each(&mut put);
        Ok(record)
    }

    /// Reads a record, for a change and another judging. It is turned away for its shape as the library does it.
    pub fn from_record(record: &[u8]) -> Result<Burst, Refusal> {
        if record.len() < HEAD || record.len() > MAX_RECORD || record[5] & 3 != 0 {
            return Err(Refusal::Record);
        }
        let head = record[..HEAD].iter().fold(0, |head, &byte| head << 8 | u64::from(byte));
        let field = |shift: u32, bits: u32| (head >> shift & ((1 << bits) - 1)) as usize;
        let layout = Layout::from_number(field(44, 4) as u8).ok_or(Refusal::Layout)?;
        let nsym = field(32, 10);
        if nsym == 0 {
            return Err(Refusal::Symbols);
        }
        let burst = Burst::new(layout, Constellation::ALL[field(42, 2)], nsym)
            .sparse(field(31, 1) == 1)
            .spread(field(30, 1) == 1)
            .gain_code(field(28, 2))
            .k(field(22, 6))
            .priors(vec![0.0; field(2, 20)]);
        if record.len() == burst.record_length() {
            Ok(burst.with_numbers(&record[HEAD..]))
        } else {
            Err(Refusal::Record)
        }
    }

    fn with_numbers(self, bytes: &[u8]) -> Burst {
        let number = |i: usize| f32::from_bits(word(bytes, 4 * i));
        let (carriers, cells, grid) = (self.layout.carriers(), self.cells(), self.grid_cells());
        let mut rest = &bytes[12..];
        let mut cut = |count: usize| {
            let (first, after) = rest.split_at(4 * count);
            rest = after;
            floats(first)
        };
        self.boost(number(0))
            .pilot_gain(number(1))
            .channel_power(number(2))
            .carrier_variances(cut(carriers))
            .cell_variances(cut(cells))
            .grid(cut(2 * grid).chunks_exact(2).map(|y| [y[0], y[1]]).collect())
            .priors(floats(rest))
    }

    fn grid_cells(&self) -> usize {
        self.symbols() * self.layout.carriers()
    }

    fn record_length(&self) -> usize {
        HEAD + 4 * (3 + self.layout.carriers() + self.cells() + 2 * self.grid_cells() + self.priors.len())
    }

    fn check_fields(&self) -> Result<(), BurstError> {
        let fields = [
            ("the number of data symbols", self.nsym, 1..=1023),
            ("the gain code", self.gain_code, 0..=3),
            ("k", self.k, 0..=63),
        ];
        match fields.into_iter().find(|(_, value, allowed)| !allowed.contains(value)) {
            Some((field, value, allowed)) => Err(BurstError::Field { field, value, allowed }),
            None => Ok(()),
        }
    }

    /// The fields, each in its place; the last two bits are padding.
    fn head(&self) -> u64 {
        let fields = [
            (usize::from(self.layout.number()), 44),
            (usize::from(self.constellation.code()), 42),
            (self.nsym, 32),
            (usize::from(self.sparse), 31),
            (usize::from(self.spread), 30),
            (self.gain_code, 28),
            (self.k, 22),
            (self.priors.len(), 2),
        ];
        fields.into_iter().fold(0, |head, (value, shift)| head | (value as u64) << shift)
    }
}

/// A list as given, of the expected length, or filled.
fn list<T: Copy>(name: &'static str, given: &Option<Vec<T>>, fill: T, expected: usize) -> Result<Vec<T>, BurstError> {
    match given {
        None => Ok(vec![fill; expected]),
        Some(numbers) if numbers.len() == expected => Ok(numbers.clone()),
        Some(numbers) => Err(BurstError::Count { list: name, expected, found: numbers.len() }),
    }
}
