//! A made-up shortwave channel: two paths of equal mean power, each fading by a Gaussian Doppler spectrum (after
//! Watterson), inside the cyclic prefix, so that a cell only meets its own carrier's gain.

use crate::complex::Complex;
use crate::random::Random;

/// Carriers 50 Hz apart and symbols of 24 ms, as the layout `Slice` has them.
const SPACING_HZ: f64 = 50.0;
const SYMBOL_S: f64 = 0.024;
/// The paths' delays. The receiver turns each carrier so that the delays lie about 0.
const DELAYS_S: [f64; 2] = [-0.001, 0.001];
/// Twice the standard deviation of the Doppler spectrum.
const DOPPLER_SPREAD_HZ: f64 = 2.0;
/// Waves that make up a path.
const WAVES: usize = 32;

struct Wave {
    gain: Complex,
    doppler_hz: f64,
}

pub struct Channel {
    middle: f64,
    paths: [Vec<Wave>; 2],
}

impl Channel {
    /// A channel of mean power 1 over so many carriers.
    pub fn random(carriers: usize, random: &mut Random) -> Channel {
        let mut path = || (0..WAVES).map(|_| Wave::random(random)).collect();
        Channel { middle: (carriers - 1) as f64 / 2.0, paths: [path(), path()] }
    }

    /// The gain of a cell.
    pub fn at(&self, carrier: usize, symbol: usize) -> Complex {
        let hz = self.hz(carrier);
        let paths = self.paths.iter().zip(DELAYS_S);
        paths.fold(Complex::ZERO, |sum, (path, delay)| {
            sum + path_gain(path, SYMBOL_S * symbol as f64) * Complex::turned(-hz * delay)
        })
    }

    /// A carrier's distance from the middle of the band.
    pub fn hz(&self, carrier: usize) -> f64 {
        SPACING_HZ * (carrier as f64 - self.middle)
    }
}

impl Wave {
    fn random(random: &mut Random) -> Wave {
        let gain = random.normal(0.5 / WAVES as f64);
        let deviation = DOPPLER_SPREAD_HZ / 2.0;
        Wave { gain, doppler_hz: random.normal(2.0 * deviation * deviation).re }
    }
}

fn path_gain(path: &[Wave], seconds: f64) -> Complex {
    path.iter().fold(Complex::ZERO, |sum, wave| sum + wave.gain * Complex::turned(wave.doppler_hz * seconds))
}
