//! The ion-hf source as the build made it, under the module names it has there, and the one
//! call that takes a whole burst.

pub mod burst;
pub mod methods;
mod refined;

pub use refined::Refined;

#[allow(dead_code)]
pub mod dsp {
    include!(concat!(env!("OUT_DIR"), "/dsp.rs"));
}

#[allow(dead_code, unused_imports)]
pub mod phy {
    use frame::*;

    include!(concat!(env!("OUT_DIR"), "/constellation.rs"));

    pub mod frame {
        include!(concat!(env!("OUT_DIR"), "/frame.rs"));
    }

    pub mod est {
        use crate::oracle::refined::place;

        include!(concat!(env!("OUT_DIR"), "/est.rs"));
    }

    pub mod rx {
        use super::frame::Map;
        use crate::oracle::dsp::Complex;

        include!(concat!(env!("OUT_DIR"), "/known.rs"));

        pub mod refine {
            include!(concat!(env!("OUT_DIR"), "/refine.rs"));
        }
    }

    /// The loops of refine between bit order and slot order.
    pub mod slots {
        use super::frame::{SEED_DATA, interleave_step, scramble};

        include!(concat!(env!("OUT_DIR"), "/to_slots.rs"));
        include!(concat!(env!("OUT_DIR"), "/from_slots.rs"));
    }

    /// The lines of refine on the points and their means.
    pub mod expected {
        use super::Constellation;
        use super::frame::{DataMode, Points, Spreader};
        use super::rx::refine::{SOFT_MIN, soft_point};
        use crate::oracle::dsp::Complex;

        include!(concat!(env!("OUT_DIR"), "/sent.rs"));
        include!(concat!(env!("OUT_DIR"), "/scaled.rs"));
        include!(concat!(env!("OUT_DIR"), "/loud.rs"));
    }
}
