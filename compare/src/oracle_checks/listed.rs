//! The numbers that document 01 lists.

use crate::groups::{LONGEST, burst_lengths};
use crate::oracle::phy::frame::{LAYOUTS, Layout, Map, Pilots, crc16, interleave_step};
use crate::report::Tally;
use crate::standins;

pub fn check() -> Tally {
    let mut t = Tally::new("oracle: listed numbers");
    layouts(&mut t);
    twelve_cases(&mut t);
    t
}

fn layouts(t: &mut Tally) {
    let robust = [44, 88, 51, 99, 10, 22, 5, 3, 10];
    let sparse = [46, 88, 52, 99, 11, 22, 5, 3, 10];
    let leading = [5, 3, 5, 3, 19, 9, 37, 61, 19];
    for (i, l) in LAYOUTS.into_iter().enumerate() {
        t.same("robust carriers", &[i as u64], l.data_carriers(Pilots::Robust), robust[i]);
        t.same("sparse carriers", &[i as u64], l.data_carriers(Pilots::Sparse), sparse[i]);
        t.same("leading symbols", &[i as u64], l.pre_syms(), leading[i]);
    }
    t.same("longest burst", &[], burst_lengths::all().max().unwrap(), LONGEST);
    t.same("shortest burst", &[], burst_lengths::all().min().unwrap(), 6);
}

/// Document 01's twelve cases, and the CRC of "123456789".
fn twelve_cases(t: &mut Tally) {
    for (n, step) in [(2, 1), (3, 2), (6, 5), (10, 7), (12, 7)] {
        t.same("step", &[n as u64], interleave_step(n), step);
    }
    for (i, slot) in [0, 5, 4, 3, 2, 1].into_iter().enumerate() {
        t.same("slot of 6", &[i as u64], interleave_step(6) * i % 6, slot);
    }
    for (g, cells) in [(61, [0, 1, 3]), (62, [1, 2, 3])] {
        for (j, c) in data_cells(LAYOUTS[7], g).into_iter().enumerate() {
            t.same("data cell", &[g as u64, j as u64], c as u32, cells[j]);
        }
    }
    t.same("exp(0)", &[], standins::exp(0.0), 1.0);
    t.same("exp(-88)", &[], standins::exp(-88.0), 0.0);
    t.same("ln(1)", &[], standins::ln(1.0), 0.0);
    t.same("CRC of 0", &[], crc16(&[0]) as u32, 0xEFDF);
    let digits: Vec<u8> = b"123456789".iter().flat_map(|c| (0..8).rev().map(move |i| c >> i & 1)).collect();
    t.same("CRC of 123456789", &[], crc16(&digits) as u32, 0x29B1);
}

fn data_cells(l: &'static Layout, g: usize) -> [u8; 3] {
    let mut cells = [0; 3];
    Map::new(l, l.pre_syms(), Pilots::Robust).data_carriers_of(g, &mut cells);
    cells
}
