//! The simplest code: the message is sent several times over, and its decoder adds the likelihoods of a bit's copies.
//! A real station has a better one.

/// How often the message is sent.
const COPIES: usize = 2;
/// Share of the decoder's opinion that goes into the next round's priors: the sum takes the copies' errors for
/// independent, which they are not.
const DAMPING: f32 = 0.5;

pub fn encode(message: &[bool]) -> Vec<bool> {
    message.repeat(COPIES)
}

pub fn message_length(bits: usize) -> usize {
    bits / COPIES
}

/// A likelihood for each bit of the message. One that is not a number says nothing.
pub fn decode(likelihoods: &[f32]) -> Vec<f32> {
    let message = message_length(likelihoods.len());
    let opinion = |v: f32| if v.is_nan() { 0.0 } else { v };
    (0..message).map(|i| likelihoods.iter().skip(i).step_by(message).copied().map(opinion).sum()).collect()
}

/// The next round's priors for every bit sent.
pub fn priors(likelihoods: &[f32]) -> Vec<f32> {
    decode(likelihoods).repeat(COPIES).into_iter().map(|v| DAMPING * v).collect()
}
