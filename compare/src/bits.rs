//! What is compared: the bits of a number, with one pattern for every NaN.

pub const NAN32: u32 = 0x7FC0_0000;
pub const NAN64: u64 = 0x7FF8_0000_0000_0000;

pub trait Bits: Copy {
    fn bits(self) -> u64;
}

impl Bits for f32 {
    fn bits(self) -> u64 {
        if self.is_nan() { NAN32 as u64 } else { self.to_bits() as u64 }
    }
}

impl Bits for f64 {
    fn bits(self) -> u64 {
        if self.is_nan() { NAN64 } else { self.to_bits() }
    }
}

macro_rules! as_they_are {
    ($($t:ty),*) => {
        $(impl Bits for $t {
            fn bits(self) -> u64 {
                self as u64
            }
        })*
    };
}

as_they_are!(bool, u32, u64, usize);
