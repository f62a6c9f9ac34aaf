//! Why a record is turned away.

use std::error::Error;
use std::fmt;

/// The causes of document 01's table that a record can be turned away for. The table's other causes don't arise:
/// a record's codes have two bits each, its lists are cut by their lengths, and it asks for no header or single
/// estimate.
#[derive(Clone, Copy, Debug, PartialEq, Eq, Hash)]
pub enum Refusal {
    /// 1: no such layout.
    Layout,
    /// 3: no data symbols.
    Symbols,
    /// 6: the lent output is too short. [`refine`](crate::refine) lends enough.
    Room,
    /// 7: a number that can't be judged.
    Numbers,
    /// 12: not a record.
    Record,
}

impl Refusal {
    /// Every refusal, in the order in which they are looked for (12 also after 3, for the length).
    pub const ALL: [Refusal; 5] = [Refusal::Record, Refusal::Layout, Refusal::Symbols, Refusal::Room, Refusal::Numbers];

    /// The number of document 01's table.
    pub fn number(self) -> u32 {
        match self {
            Refusal::Layout => 1,
            Refusal::Symbols => 3,
            Refusal::Room => 6,
            Refusal::Numbers => 7,
            Refusal::Record => 12,
        }
    }

    /// The refusal of a number.
    pub fn from_number(number: u32) -> Option<Refusal> {
        Refusal::ALL.into_iter().find(|refusal| refusal.number() == number)
    }
}

impl fmt::Display for Refusal {
    fn fmt(&self, f: &mut fmt::Formatter<'_>) -> fmt::Result {
        let meaning = match self {
            Refusal::Layout => "the layout is above 8",
            Refusal::Symbols => "the burst has no data symbols",
            Refusal::Room => "the output is shorter than the answer",
            Refusal::Numbers => {
                "a number is not finite, a variance is below 0, the channel power is not above 0, \
                 or boost or pilot gain is outside 0.125 to 8"
            }
            Refusal::Record => {
                "the record is under 6 bytes, over 8,192, padded with a 1, or not of the length its fields give"
            }
        };
        write!(f, "refused {}: {meaning}", self.number())
    }
}

impl Error for Refusal {}

#[cfg(test)]
mod tests {
    use super::*;

    #[test]
    fn numbers_are_document_01s() {
        let known: Vec<_> = (0..100).filter(|&n| Refusal::from_number(n).is_some()).collect();
        assert_eq!(known, [1, 3, 6, 7, 12]);
        assert_eq!(Refusal::Layout.to_string(), "refused 1: the layout is above 8");
    }
}
