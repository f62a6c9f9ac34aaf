//! What a judged record gives.

use crate::words::{floats, word};

/// The answer to one record.
#[derive(Clone, Debug, PartialEq)]
pub struct Answer {
    /// Places of the chosen channel model in the layout's lists of Doppler and of delay spreads; 3 3 for the fallback.
    pub model: (u8, u8),
    /// Factor on the predicted errors, 1 to 10. It can be not a number.
    pub scale: f32,
    /// How many likelihoods are not a number.
    pub spoilt: u32,
    /// A log likelihood ratio for each bit, in bit order: above 0 for a 0.
    pub likelihoods: Vec<f32>,
}

/// Bytes before the likelihoods.
pub(crate) const REPORT: usize = 10;

impl Answer {
    /// Reads the library's bytes, exactly one answer; nothing where they can't be one.
    pub fn from_bytes(bytes: &[u8]) -> Option<Answer> {
        if bytes.len() < REPORT || !(bytes.len() - REPORT).is_multiple_of(4) {
            return None;
        }
        Some(Answer {
            model: (bytes[0], bytes[1]),
            scale: f32::from_bits(word(bytes, 2)),
            spoilt: word(bytes, 6),
            likelihoods: floats(&bytes[REPORT..]),
        })
    }

    /// Whether no model was borne out by the pilots and the fallback was used.
    pub fn is_fallback(&self) -> bool {
        self.model == (3, 3)
    }

    /// Whether scale and every likelihood are numbers.
    pub fn is_sound(&self) -> bool {
        self.spoilt == 0 && !self.scale.is_nan()
    }

    /// Each bit by its likelihood's sign; nothing where that is zero or not a number.
    pub fn bits(&self) -> impl Iterator<Item = Option<bool>> + '_ {
        self.likelihoods.iter().map(|&v| if v == 0.0 || v.is_nan() { None } else { Some(v < 0.0) })
    }
}

/// The channel at one data cell, estimated without the cell's own sample in an unspread burst.
#[derive(Clone, Copy, Debug, PartialEq)]
pub struct Estimate {
    /// Real part.
    pub re: f32,
    /// Imaginary part.
    pub im: f32,
    /// Predicted error variance, scale included.
    pub error: f32,
}

impl Estimate {
    /// The channel's amplitude.
    pub fn magnitude(&self) -> f32 {
        self.re.hypot(self.im)
    }

    /// Reads `count` estimates.
    pub(crate) fn list(bytes: &[u8], count: usize) -> Vec<Estimate> {
        floats(&bytes[..12 * count]).chunks_exact(3).map(|n| Estimate { re: n[0], im: n[1], error: n[2] }).collect()
    }
}

#[cfg(test)]
mod tests {
    use super::*;

    #[test]
    fn an_answer_is_read() {
        let mut bytes = vec![2, 1, 0x40, 0, 0, 0, 0, 0, 0, 1];
        bytes.extend([0x80, 0, 0, 0, 0xC0, 0, 0, 0, 0x7F, 0xC0, 0, 0]);
        let answer = Answer::from_bytes(&bytes).unwrap();
        assert_eq!((answer.model, answer.scale, answer.spoilt), ((2, 1), 2.0, 1));
        assert!(answer.likelihoods[0].is_sign_negative() && answer.likelihoods[2].is_nan());
        assert_eq!(answer.bits().collect::<Vec<_>>(), [None, Some(true), None]);
        assert!(!answer.is_fallback() && !answer.is_sound());
        assert_eq!(Answer::from_bytes(&bytes[..9]), None);
        assert_eq!(Answer::from_bytes(&bytes[..12]), None);
    }
}
