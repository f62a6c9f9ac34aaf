//! Bursts laid out, read back and judged.

use std::thread;

use niyumbek_host::{answer_length, refine, refine_with_channel, Burst, BurstError, Constellation, Layout, MAX_RECORD};

/// Every field and every number another than the default.
fn filled() -> Burst {
    let burst = Burst::new(Layout::Slice, Constellation::Qam16, 5).sparse(true).spread(true).gain_code(3).k(33);
    let count = |n: usize, from: f32| (0..n).map(|i| from + i as f32 / 64.0).collect::<Vec<_>>();
    let (cells, bits, grid) = (burst.cells(), burst.bits(), 13 * burst.symbols());
    burst
        .boost(1.5)
        .pilot_gain(0.75)
        .channel_power(2.0)
        .carrier_variances(count(13, 0.25))
        .cell_variances(count(cells, 0.5))
        .grid(count(grid, -1.0).into_iter().map(|x| [x, -x / 2.0]).collect())
        .priors(count(bits, -1.5))
}

#[test]
fn a_burst_is_laid_out_and_read_back() {
    let record = filled().to_record().unwrap();
    let again = Burst::from_record(&record).unwrap();
    assert_eq!((again.symbols(), again.cells(), again.bits()), (24, 55, 220));
    assert_eq!(again.to_record().unwrap(), record);
    // layout 4, 16QAM 2, nsym 5, sparse, spread, gain code 3, k 33, 220 priors
    assert_eq!(record[..6], [0x48, 0x05, 0xF8, 0x40, 0x03, 0x70]);
    assert_eq!(record[6..18], [0x3F, 0xC0, 0, 0, 0x3F, 0x40, 0, 0, 0x40, 0, 0, 0]);
    assert_eq!(record[18..22], 0.25f32.to_be_bytes());
    assert_eq!(record[record.len() - 880..][..4], (-1.5f32).to_be_bytes());
    assert_eq!(answer_length(&record), Some(10 + 4 * 220));
}

#[test]
fn a_filled_burst_is_judged() {
    let record = filled().to_record().unwrap();
    let (answer, channel) = refine_with_channel(&record).unwrap();
    assert_eq!((answer.likelihoods.len(), channel.len()), (220, 55));
    assert!(answer.is_sound() && answer.likelihoods.iter().all(|v| v.abs() <= 40.0));
    assert_eq!(refine(&record), Ok(answer));
}

#[test]
fn every_layout_and_constellation_is_judged() {
    for layout in Layout::ALL {
        for constellation in Constellation::ALL {
            for (sparse, spread) in [(false, false), (true, true)] {
                let burst = Burst::new(layout, constellation, 2).sparse(sparse).spread(spread);
                let (answer, channel) = refine_with_channel(&burst.to_record().unwrap()).unwrap();
                assert_eq!((answer.likelihoods.len(), channel.len()), (burst.bits(), burst.cells()));
            }
        }
    }
}

/// The example's last round, and as many threads at once as it takes to see that they don't disturb each other.
#[test]
fn the_stored_burst_is_judged_by_several_threads() {
    let record = include_bytes!("../records/fading.record");
    let answer = refine(record).unwrap();
    assert_eq!(answer.likelihoods.len(), 572);
    assert!(answer.is_sound() && !answer.is_fallback());
    thread::scope(|threads| {
        let others: Vec<_> = (0..4).map(|_| threads.spawn(|| refine(record))).collect();
        others.into_iter().for_each(|other| assert_eq!(other.join().unwrap().as_ref(), Ok(&answer)));
    });
}

/// 2,046 numbers: the most that fit.
#[test]
fn the_longest_record_is_judged() {
    let burst = Burst::new(Layout::Slim, Constellation::Qpsk, 13);
    let priors = vec![0.5; 632];
    let record = burst.clone().priors(priors.clone()).to_record().unwrap();
    assert_eq!(record.len(), 8190);
    assert_eq!(refine(&record).unwrap().likelihoods.len(), burst.bits());
    let longer = burst.priors([priors, vec![0.5]].concat()).to_record();
    assert_eq!(longer, Err(BurstError::TooLong { bytes: 8194 }));
}

#[test]
fn priors_past_the_last_bit_count_for_nothing() {
    let burst = Burst::new(Layout::Quarter, Constellation::Qpsk, 1);
    let priors = vec![1.0, -2.0, 3.0, -4.0, 5.0, -6.0];
    let exact = burst.clone().priors(priors.clone()).to_record().unwrap();
    let beyond = burst.priors([priors, vec![f32::NAN, f32::INFINITY, 9.0]].concat()).to_record().unwrap();
    assert_eq!(refine(&beyond), Ok(refine(&exact).unwrap()));
}

#[test]
fn a_burst_that_no_record_holds_is_told_why() {
    let burst = || Burst::new(Layout::Normal, Constellation::Qam64, 1);
    let why = |burst: Burst| burst.to_record().unwrap_err().to_string();
    assert_eq!(why(Burst::new(Layout::Long, Constellation::Qpsk, 0)), "the number of data symbols is 0, not 1 to 1023");
    assert_eq!(
        why(Burst::new(Layout::Half, Constellation::Qpsk, 1024)),
        "the number of data symbols is 1024, not 1 to 1023"
    );
    assert_eq!(why(burst().gain_code(4)), "the gain code is 4, not 0 to 3");
    assert_eq!(why(burst().k(64)), "k is 64, not 0 to 63");
    assert_eq!(why(burst().carrier_variances(vec![1.0; 48])), "carrier variances: 48 given, 49 needed");
    assert_eq!(why(burst().grid(vec![[0.0; 2]; 295])), "grid: 295 given, 294 needed");
    assert_eq!(why(burst().priors(vec![0.0; 3000])), "the record would have 14742 bytes, over 8192");
    assert_eq!(MAX_RECORD, 8192);
}
