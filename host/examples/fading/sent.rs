//! The cells of a QPSK burst as ion-hf's transmitter sends them (frame.rs): reference symbol, pilots, and the data
//! scrambled, interleaved over the burst and mapped to points.

use std::f64::consts::FRAC_1_SQRT_2;

use niyumbek_host::Layout;

use crate::code;
use crate::complex::Complex;
use crate::random::Random;

/// Amplitude of a pilot against a data cell's.
const PILOT_AMPLITUDE: f64 = 4.0 / 3.0;
const SEED_DATA: u32 = 0x4865_726D;
/// Bits of a QPSK point.
const BITS: usize = 2;

pub struct Sent {
    pub message: Vec<bool>,
    /// The message, encoded.
    pub bits: Vec<bool>,
    /// Symbol after symbol, each with all its carriers.
    pub cells: Vec<Complex>,
    /// Carrier and symbol of each data cell, in cell order.
    pub places: Vec<(usize, usize)>,
    step: usize,
}

impl Sent {
    /// A burst of `nsym` data symbols with random bits. The header's cells carry random points: the refinement reads
    /// only the pilots there.
    pub fn random(layout: Layout, nsym: usize, sparse: bool, random: &mut Random) -> Sent {
        let symbols = layout.leading_symbols() + nsym;
        let count = BITS * nsym * layout.data_carriers(sparse);
        let message: Vec<bool> = (0..code::message_length(count)).map(|_| random.bit()).collect();
        let mut sent = Sent {
            bits: code::encode(&message),
            message,
            cells: Vec::new(),
            places: Vec::new(),
            step: interleave_step(count),
        };
        let mut labels = sent.labels().into_iter();
        for symbol in 0..symbols {
            for carrier in 0..layout.carriers() {
                let cell = if symbol == 0 {
                    reference_value(layout, carrier)
                } else if layout.is_pilot(sparse, carrier, symbol) {
                    pilot_value(layout, carrier, symbol)
                } else if symbol < layout.leading_symbols() {
                    qpsk(random.bits() as usize % 4)
                } else {
                    sent.places.push((carrier, symbol));
                    qpsk(labels.next().expect("a label for each data cell"))
                };
                sent.cells.push(cell);
            }
        }
        sent
    }

    /// The data cell that carries a bit.
    pub fn cell_of(&self, bit: usize) -> usize {
        self.slot(bit) / BITS
    }

    fn slot(&self, bit: usize) -> usize {
        self.step * bit % self.bits.len()
    }

    /// Each data cell's point: the bits at its slots, first bit highest.
    fn labels(&self) -> Vec<usize> {
        let mut slots = vec![false; self.bits.len()];
        for (i, &bit) in self.bits.iter().enumerate() {
            slots[self.slot(i)] = bit != scramble(SEED_DATA, i);
        }
        slots.chunks_exact(BITS).map(|s| usize::from(s[0]) << 1 | usize::from(s[1])).collect()
    }
}

fn qpsk(label: usize) -> Complex {
    let part = |bit: usize| if bit == 0 { FRAC_1_SQRT_2 } else { -FRAC_1_SQRT_2 };
    Complex::new(part(label >> 1), part(label & 1))
}

/// Symbol 0: Newman's phases at a data symbol's power (`b_value`).
fn reference_value(layout: Layout, carrier: usize) -> Complex {
    let (carriers, data) = (layout.carriers() as f64, layout.data_carriers(false) as f64);
    let power = data + (carriers - data) * PILOT_AMPLITUDE * PILOT_AMPLITUDE;
    Complex::turned((carrier * carrier) as f64 / (2.0 * carriers)).scale((power / carriers).sqrt())
}

/// A sign by hash (`pilot_value`).
fn pilot_value(layout: Layout, carrier: usize, symbol: usize) -> Complex {
    let place = (symbol * layout.carriers() + carrier) as u32;
    let sign = if mix32(place ^ 0x5EED_1E75) & 1 == 0 { 1.0 } else { -1.0 };
    Complex::new(sign * PILOT_AMPLITUDE, 0.0)
}

fn mix32(mut x: u32) -> u32 {
    x ^= x >> 16;
    x = x.wrapping_mul(0x7FEB_352D);
    x ^= x >> 15;
    x = x.wrapping_mul(0x846C_A68B);
    x ^ x >> 16
}

fn scramble(seed: u32, i: usize) -> bool {
    mix32((i as u32).wrapping_mul(0x9E37_79B9) ^ seed) >> 7 & 1 == 1
}

/// The first number from n over the golden ratio up that is coprime to n.
fn interleave_step(n: usize) -> usize {
    let from = (n as f64 * 0.61803398875).round() as usize;
    (from..).find(|&a| gcd(a, n) == 1).expect("some number is coprime to n")
}

fn gcd(a: usize, b: usize) -> usize {
    if b == 0 {
        a
    } else {
        gcd(b, a % b)
    }
}
