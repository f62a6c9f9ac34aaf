//! Document 01's printed example, byte for byte.

use niyumbek_host::{refine_into, refine_with_channel, Burst, Constellation, Layout, MAX_ANSWER};

fn printed() -> Vec<u8> {
    Burst::new(Layout::Quarter, Constellation::Qpsk, 1).to_record().unwrap()
}

#[test]
fn the_record_is_the_printed_one() {
    let ones = 3 + 5 + 3;
    let mut expected = vec![0x70, 0x01, 0x05, 0x00, 0x00, 0x00];
    expected.extend([0x3F, 0x80, 0x00, 0x00].repeat(ones));
    expected.resize(2530, 0);
    assert_eq!(printed(), expected);
}

/// A zero keeps its sign here: bits 0, 1 and 5 are negative zeros.
#[test]
fn the_answer_is_the_printed_one() {
    let mut out = [0xA5; MAX_ANSWER];
    let zero = |negative: bool| [if negative { 0x80 } else { 0 }, 0, 0, 0];
    let mut expected = vec![0, 0, 0x3F, 0x80, 0, 0, 0, 0, 0, 0];
    expected.extend([true, true, false, false, false, true].map(zero).concat());
    assert_eq!(refine_into(&printed(), &mut out), Ok(34));
    assert_eq!(out[..34], expected);
    assert!(out[34..].iter().all(|&byte| byte == 0xA5), "bytes past the answer were written");
}

#[test]
fn nothing_received_is_estimated_as_nothing() {
    let (answer, channel) = refine_with_channel(&printed()).unwrap();
    assert_eq!(answer.likelihoods, [0.0; 6]);
    assert!(answer.is_sound() && !answer.is_fallback());
    assert_eq!(channel.len(), 3);
    assert!(channel.iter().all(|cell| cell.magnitude() == 0.0 && cell.error > 0.0));
}
