//! The layouts and constellations of a burst, with the sizes that follow from them (ion-hf's frame.rs).

/// The nine layouts, in the order of ion-hf's `LAYOUTS`.
#[derive(Clone, Copy, Debug, PartialEq, Eq, Hash)]
pub enum Layout {
    /// 49 carriers 50 Hz apart.
    Normal,
    /// 97 carriers 25 Hz apart, for long echoes.
    Long,
    /// 55 carriers 50 Hz apart.
    NormalWide,
    /// 109 carriers 25 Hz apart.
    LongWide,
    /// 13 carriers 50 Hz apart.
    Slice,
    /// 25 carriers 26.7 Hz apart.
    Slim,
    /// 7 carriers 50 Hz apart.
    Half,
    /// 5 carriers 50 Hz apart.
    Quarter,
    /// 13 carriers 25 Hz apart.
    Sixth,
}

/// Carrier c is a pilot of symbol g where c mod step = shift × (g mod period); shift × period = step.
struct Pattern {
    step: usize,
    period: usize,
}

struct Numbers {
    carriers: usize,
    leading: usize,
    robust: Pattern,
    sparse: Pattern,
}

const fn numbers(carriers: usize, leading: usize, robust: (usize, usize), sparse: (usize, usize)) -> Numbers {
    Numbers {
        carriers,
        leading,
        robust: Pattern { step: robust.0, period: robust.1 },
        sparse: Pattern { step: sparse.0, period: sparse.1 },
    }
}

const NUMBERS: [Numbers; 9] = [
    numbers(49, 5, (12, 4), (24, 8)),
    numbers(97, 3, (12, 4), (12, 4)),
    numbers(55, 5, (18, 6), (27, 9)),
    numbers(109, 3, (12, 4), (12, 4)),
    numbers(13, 19, (6, 2), (12, 4)),
    numbers(25, 9, (12, 4), (12, 4)),
    numbers(7, 37, (6, 2), (6, 2)),
    numbers(5, 61, (4, 2), (4, 2)),
    numbers(13, 19, (6, 2), (6, 2)),
];

impl Layout {
    /// Every layout by its number.
    pub const ALL: [Layout; 9] = [
        Layout::Normal,
        Layout::Long,
        Layout::NormalWide,
        Layout::LongWide,
        Layout::Slice,
        Layout::Slim,
        Layout::Half,
        Layout::Quarter,
        Layout::Sixth,
    ];

    /// 0 to 8, as a record holds it.
    pub fn number(self) -> u8 {
        self as u8
    }

    /// The layout of a number from 0 to 8.
    pub fn from_number(number: u8) -> Option<Layout> {
        Layout::ALL.get(usize::from(number)).copied()
    }

    /// Carriers, data and pilots together.
    pub fn carriers(self) -> usize {
        self.numbers().carriers
    }

    /// Symbols before the data: the reference symbol and the header.
    pub fn leading_symbols(self) -> usize {
        self.numbers().leading
    }

    /// Data carriers of a data symbol, under the sparse or the robust pilot pattern.
    pub fn data_carriers(self, sparse: bool) -> usize {
        let carriers = self.carriers();
        carriers - ((carriers - 1) / self.pattern(sparse).step + 1)
    }

    /// Whether the cell of `carrier` and `symbol` (of the whole burst, counted from 0) is sent with a known value.
    /// The reference symbol is all known; the header has the robust pattern in any burst.
    pub fn is_pilot(self, sparse: bool, carrier: usize, symbol: usize) -> bool {
        let Pattern { step, period } = self.pattern(sparse && symbol >= self.leading_symbols());
        symbol == 0 || carrier == self.carriers() - 1 || carrier % step == step / period * (symbol % period)
    }

    fn numbers(self) -> &'static Numbers {
        &NUMBERS[self as usize]
    }

    fn pattern(self, sparse: bool) -> &'static Pattern {
        if sparse {
            &self.numbers().sparse
        } else {
            &self.numbers().robust
        }
    }
}

/// The four constellations, by their codes 0 to 3.
#[derive(Clone, Copy, Debug, PartialEq, Eq, Hash)]
pub enum Constellation {
    /// Two bits a point.
    Qpsk,
    /// Three bits a point.
    Psk8,
    /// Four bits a point.
    Qam16,
    /// Six bits a point.
    Qam64,
}

impl Constellation {
    /// Every constellation by its code.
    pub const ALL: [Constellation; 4] =
        [Constellation::Qpsk, Constellation::Psk8, Constellation::Qam16, Constellation::Qam64];

    /// 0 to 3, as a record holds it.
    pub fn code(self) -> u8 {
        self as u8
    }

    /// The constellation of a code from 0 to 3.
    pub fn from_code(code: u8) -> Option<Constellation> {
        Constellation::ALL.get(usize::from(code)).copied()
    }

    /// Bits that a point carries.
    pub fn bits_per_point(self) -> usize {
        [2, 3, 4, 6][self as usize]
    }
}

#[cfg(test)]
mod tests {
    use super::*;

    #[test]
    fn sizes_are_document_01s() {
        let data: Vec<_> = Layout::ALL.iter().map(|l| (l.data_carriers(false), l.data_carriers(true))).collect();
        let leading: Vec<_> = Layout::ALL.iter().map(|l| l.leading_symbols()).collect();
        assert_eq!(data, [(44, 46), (88, 88), (51, 52), (99, 99), (10, 11), (22, 22), (5, 5), (3, 3), (10, 10)]);
        assert_eq!(leading, [5, 3, 5, 3, 19, 9, 37, 61, 19]);
    }

    #[test]
    fn each_data_symbol_has_its_data_carriers() {
        for layout in Layout::ALL {
            for sparse in [false, true] {
                for symbol in layout.leading_symbols()..layout.leading_symbols() + 72 {
                    let data = (0..layout.carriers()).filter(|&c| !layout.is_pilot(sparse, c, symbol)).count();
                    assert_eq!(data, layout.data_carriers(sparse));
                }
            }
        }
    }

    #[test]
    fn quarter_has_the_listed_data_cells() {
        let data = |symbol| (0..5).filter(|&c| !Layout::Quarter.is_pilot(false, c, symbol)).collect::<Vec<_>>();
        assert_eq!(data(61), [0, 1, 3]);
        assert_eq!(data(62), [1, 2, 3]);
    }

    #[test]
    fn numbers_and_codes_round_trip() {
        assert!(Layout::ALL.iter().all(|&l| Layout::from_number(l.number()) == Some(l)));
        assert!(Constellation::ALL.iter().all(|&c| Constellation::from_code(c.code()) == Some(c)));
        assert_eq!((Layout::from_number(9), Constellation::from_code(4)), (None, None));
    }
}
