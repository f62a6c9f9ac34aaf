//! A call fits on a small stack.

use std::thread;

use niyumbek_host::{refine, refine_with_channel, Burst, Constellation, Layout};

const STACK: usize = 256 * 1024;

#[test]
fn every_layout_is_judged_on_a_small_stack() {
    let judge = || {
        for layout in Layout::ALL {
            for spread in [false, true] {
                let burst = Burst::new(layout, Constellation::Qam64, 2).spread(spread).k(40);
                let record = burst.to_record().unwrap();
                assert_eq!(refine(&record), refine_with_channel(&record).map(|(answer, _)| answer));
            }
        }
    };
    thread::Builder::new().stack_size(STACK).spawn(judge).unwrap().join().unwrap();
}
