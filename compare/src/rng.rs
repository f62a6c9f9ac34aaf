//! Seeded numbers (splitmix64): the same comparison every time.

pub struct Rng(u64);

impl Rng {
    pub fn new(seed: u64) -> Rng {
        Rng(seed)
    }

    pub fn bits64(&mut self) -> u64 {
        self.0 = self.0.wrapping_add(0x9E37_79B9_7F4A_7C15);
        let mut z = self.0;
        z = (z ^ (z >> 30)).wrapping_mul(0xBF58_476D_1CE4_E5B9);
        z = (z ^ (z >> 27)).wrapping_mul(0x94D0_49BB_1331_11EB);
        z ^ (z >> 31)
    }

    pub fn bits32(&mut self) -> u32 {
        (self.bits64() >> 32) as u32
    }

    /// From lo up to, and without, hi.
    pub fn between(&mut self, lo: u64, hi: u64) -> u64 {
        lo + self.bits64() % (hi - lo)
    }

    /// From 0 up to, and without, 1.
    pub fn unit(&mut self) -> f64 {
        (self.bits64() >> 11) as f64 / (1u64 << 53) as f64
    }

    pub fn any32(&mut self) -> f32 {
        f32::from_bits(self.bits32())
    }

    pub fn any64(&mut self) -> f64 {
        f64::from_bits(self.bits64())
    }

    pub fn pick<T: Copy>(&mut self, list: &[T]) -> T {
        list[self.between(0, list.len() as u64) as usize]
    }
}
