//! Answers at the edge of what numbers can hold.

use niyumbek_host::{refine, refine_into, Burst, Constellation, Layout, MAX_ANSWER};

fn one_symbol() -> Burst {
    Burst::new(Layout::Quarter, Constellation::Qpsk, 1)
}

#[test]
fn a_scale_that_is_not_a_number() {
    let record = one_symbol()
        .k(1)
        .boost(0.125)
        .pilot_gain(0.75)
        .channel_power(f32::MAX)
        .carrier_variances(vec![f32::MAX; 5])
        .to_record()
        .unwrap();
    let answer = refine(&record).unwrap();
    assert_eq!((answer.model, answer.spoilt), ((0, 0), 0));
    assert!(answer.scale.is_nan() && !answer.is_sound());
    let mut out = [0; MAX_ANSWER];
    refine_into(&record, &mut out).unwrap();
    assert_eq!(out[2..6], [0x7F, 0xC0, 0, 0]);
}

#[test]
fn a_number_so_large_that_no_model_is_borne_out() {
    let mut grid = vec![[0.0; 2]; 5 * one_symbol().symbols()];
    grid[0][0] = f32::MAX;
    let answer = refine(&one_symbol().grid(grid).to_record().unwrap()).unwrap();
    assert!(answer.is_fallback());
    assert_eq!(answer.scale, 1.0);
}
