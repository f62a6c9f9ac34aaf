//! The ion-hf source with its own library functions, as published but for the caller's boost: it is timed beside ours.

use crate::oracle::burst::Burst;

#[allow(dead_code)]
pub mod dsp {
    include!(concat!(env!("OUT_DIR"), "/published/dsp.rs"));
}

#[allow(dead_code, unused_imports)]
pub mod phy {
    use frame::*;

    include!(concat!(env!("OUT_DIR"), "/published/constellation.rs"));

    pub mod frame {
        include!(concat!(env!("OUT_DIR"), "/published/frame.rs"));
    }

    pub mod est {
        include!(concat!(env!("OUT_DIR"), "/published/est.rs"));
    }

    pub mod rx {
        use super::frame::Map;
        use crate::published::dsp::Complex;

        include!(concat!(env!("OUT_DIR"), "/published/known.rs"));

        pub mod refine {
            include!(concat!(env!("OUT_DIR"), "/published/refine.rs"));
        }
    }
}

use dsp::Complex;
use phy::frame::{DataMode, Header, LAYOUTS, Map, NC_MAX};
use phy::rx::refine::BurstGrid;

/// What the receiver keeps of a burst until it is refined.
pub fn kept(b: &Burst) -> BurstGrid {
    let l = LAYOUTS[b.layout];
    let header = Header {
        constellation: b.constellation,
        nsym: b.nsym,
        user: 0,
        extra: 0,
        sparse: b.sparse,
        mode: DataMode { spread: b.spread, gain_code: b.gain_code },
    };
    let mut map = Map::new(l, l.pre_syms(), header.pilots()).with_gain(b.pilot_gain);
    map.boost = b.boost;
    let grid: Vec<Complex> = b.grid.chunks_exact(2).map(|y| Complex::new(y[0], y[1])).collect();
    let mut sigma2 = [0f32; NC_MAX];
    sigma2[..l.nc].copy_from_slice(&b.carrier_variances);
    BurstGrid::new(l, header, map, &grid, sigma2, b.cell_variances.clone(), b.p_h)
}
