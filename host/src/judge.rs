//! Safe calls of the proved library.

use crate::answer::REPORT;
use crate::{ffi, Answer, Constellation, Estimate, Refusal, MAX_CHANNEL};

/// Judges a record.
///
/// ```
/// use niyumbek_host::{refine, Refusal};
///
/// let refusal = refine(&[0x90, 0, 0, 0, 0, 0]).unwrap_err();
/// assert_eq!(refusal, Refusal::Layout);
/// assert_eq!(refusal.to_string(), "refused 1: the layout is above 8");
/// ```
pub fn refine(record: &[u8]) -> Result<Answer, Refusal> {
    let mut out = vec![0; room(record)];
    verdict(ffi::refine(record, &mut out))?;
    Ok(read(&out))
}

/// Judges a record, and hands out the channel at each data cell, in cell order, as well.
pub fn refine_with_channel(record: &[u8]) -> Result<(Answer, Vec<Estimate>), Refusal> {
    let mut out = vec![0; room(record)];
    let mut channel = vec![0; MAX_CHANNEL];
    verdict(ffi::refine_with_channel(record, &mut out, &mut channel))?;
    let code = usize::from(record[0] >> 2 & 3);
    let cells = ffi::bits(record) / Constellation::ALL[code].bits_per_point();
    Ok((read(&out), Estimate::list(&channel, cells)))
}

/// Judges a record into a buffer of the caller's, allocating nothing, and gives the number of bytes written. A refusal
/// leaves the buffer as it was, and so do the bytes past the answer.
///
/// ```
/// use niyumbek_host::{refine_into, Refusal, MAX_ANSWER};
///
/// let mut out = [7; MAX_ANSWER];
/// assert_eq!(refine_into(&[0; 6], &mut out), Err(Refusal::Symbols));
/// assert_eq!(out, [7; MAX_ANSWER]);
/// ```
pub fn refine_into(record: &[u8], out: &mut [u8]) -> Result<usize, Refusal> {
    verdict(ffi::refine(record, out)).map(|()| room(record))
}

/// Bytes of the answer to a record of accepted shape; its numbers may still be refused.
pub fn answer_length(record: &[u8]) -> Option<usize> {
    match ffi::bits(record) {
        0 => None,
        bits => Some(REPORT + 4 * bits),
    }
}

/// What to lend for the answer. A record of no accepted shape needs none: it is refused for its shape first.
fn room(record: &[u8]) -> usize {
    answer_length(record).unwrap_or(0)
}

fn verdict(number: u32) -> Result<(), Refusal> {
    match number {
        0 => Ok(()),
        _ => Err(Refusal::from_number(number).expect("a refusal that document 01 lists for records")),
    }
}

fn read(out: &[u8]) -> Answer {
    Answer::from_bytes(out).expect("an answer of the length that was lent")
}
