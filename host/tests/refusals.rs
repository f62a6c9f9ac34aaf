//! Every cause that a record can be turned away for. A refusal leaves the output as it was.

use niyumbek_host::{answer_length, refine, refine_into, Burst, Constellation, Layout, Refusal, MAX_ANSWER};

fn burst() -> Burst {
    Burst::new(Layout::Half, Constellation::Psk8, 2)
}

fn record(burst: Burst) -> Vec<u8> {
    burst.to_record().unwrap()
}

fn with_byte(at: usize, change: impl Fn(u8) -> u8) -> Vec<u8> {
    let mut record = record(burst());
    record[at] = change(record[at]);
    record
}

fn refused(record: &[u8], refusal: Refusal) {
    let mut out = [0xA5; MAX_ANSWER];
    assert_eq!(refine_into(record, &mut out), Err(refusal));
    assert!(out.iter().all(|&byte| byte == 0xA5), "a refusal wrote to the output");
    assert_eq!(refine(record), Err(refusal));
}

/// The host's own reading of the shape agrees with the library's.
fn misshapen(record: &[u8], refusal: Refusal) {
    refused(record, refusal);
    assert_eq!(answer_length(record), None);
    assert_eq!(Burst::from_record(record).unwrap_err(), refusal);
}

#[test]
fn not_a_record() {
    let whole = record(burst());
    misshapen(&[], Refusal::Record);
    misshapen(&whole[..5], Refusal::Record);
    misshapen(&whole[..6], Refusal::Record);
    misshapen(&whole[..whole.len() - 1], Refusal::Record);
    misshapen(&whole[..whole.len() - 4], Refusal::Record);
    misshapen(&[whole.clone(), vec![0]].concat(), Refusal::Record);
    misshapen(&[0; 8193], Refusal::Record);
    misshapen(&with_byte(5, |byte| byte | 1), Refusal::Record);
    misshapen(&with_byte(5, |byte| byte | 2), Refusal::Record);
}

#[test]
fn no_such_layout() {
    misshapen(&with_byte(0, |byte| byte & 0x0F | 0x90), Refusal::Layout);
    misshapen(&with_byte(0, |byte| byte | 0xF0), Refusal::Layout);
    misshapen(&[0x90, 0, 0, 0, 0, 0], Refusal::Layout);
}

#[test]
fn no_data_symbols() {
    misshapen(&with_byte(1, |_| 0), Refusal::Symbols);
}

#[test]
fn too_little_room() {
    let whole = record(burst());
    let length = answer_length(&whole).unwrap();
    let mut out = vec![0xA5; length];
    assert_eq!(refine_into(&whole, &mut out[..length - 1]), Err(Refusal::Room));
    assert_eq!(refine_into(&whole, &mut []), Err(Refusal::Room));
    assert!(out.iter().all(|&byte| byte == 0xA5));
    assert_eq!(refine_into(&whole, &mut out), Ok(length));
}

#[test]
fn numbers_not_finite() {
    for bad in [f32::NAN, -f32::NAN, f32::INFINITY, f32::NEG_INFINITY] {
        let mut grid = vec![[0.0; 2]; burst().symbols() * 7];
        *grid.last_mut().unwrap() = [0.0, bad];
        refused(&record(burst().grid(grid)), Refusal::Numbers);
        refused(&record(burst().priors(vec![0.0, bad])), Refusal::Numbers);
        refused(&record(burst().carrier_variances(vec![bad; 7])), Refusal::Numbers);
        refused(&record(burst().cell_variances(vec![bad; 10])), Refusal::Numbers);
        refused(&record(burst().boost(bad)), Refusal::Numbers);
    }
}

#[test]
fn numbers_out_of_range() {
    refused(&record(burst().carrier_variances([vec![1.0; 6], vec![-1.0]].concat())), Refusal::Numbers);
    refused(&record(burst().cell_variances([vec![1.0; 9], vec![-1e-45]].concat())), Refusal::Numbers);
    for power in [0.0, -0.0, -1.0] {
        refused(&record(burst().channel_power(power)), Refusal::Numbers);
    }
    for gain in [0.124, 8.001, -1.0] {
        refused(&record(burst().boost(gain)), Refusal::Numbers);
        refused(&record(burst().pilot_gain(gain)), Refusal::Numbers);
    }
}

#[test]
fn the_ends_of_the_ranges_are_accepted() {
    for gain in [0.125, 8.0] {
        assert!(refine(&record(burst().boost(gain).pilot_gain(gain))).is_ok());
    }
    assert!(refine(&record(burst().carrier_variances(vec![-0.0; 7]))).is_ok());
}
