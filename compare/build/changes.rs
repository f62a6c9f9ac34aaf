//! What is taken from the ion-hf source, and everything that is changed in it:
//! document 01's stand-ins for library functions, its order of equal distances, settings from
//! the caller, what refine hands out besides, and private items made public.

use crate::text::{Change, Part, change, oracle_only, part};

const REFINE: &str = "crates/ion/src/phy/rx/refine.rs";

pub const PARTS: &[Part] = &[
    part("dsp.rs", "crates/ion-dsp/src/dsp/mod.rs", ("use core::ops::", "/// Numerically controlled oscillator"), &[]),
    part(
        "constellation.rs",
        "crates/ion/src/phy.rs",
        ("/// Data constellation of a burst.", "/// OFDM numerology:"),
        &[change("ion_dsp::", "crate::oracle::", 1), change("\n    fn ", "\n    pub fn ", 3)],
    ),
    part(
        "known.rs",
        "crates/ion/src/phy/rx.rs",
        ("/// Known value of cell (", "impl PhyRx {"),
        &[change("fn known(", "pub fn known(", 1), change("preamble_boost()", "map.boost", 1)],
    ),
    part("header.rs", "crates/ion/src/phy/frame/header.rs", ("use super::{DataMode", "fn hdr_code()"), &[]),
    part("frame.rs", "crates/ion/src/phy/frame.rs", ("use ion_dsp::dsp::Complex;", ""), IN_FRAME),
    part("est.rs", "crates/ion/src/phy/est.rs", ("use ion_dsp::dsp::Complex;", ""), IN_EST),
    part("refine.rs", REFINE, ("use std::fmt;", ""), IN_REFINE),
    // The two loops of refine that the slot lists are compared with, each as a function.
    Part {
        frame: (
            "pub fn to_slots(prior: &[f32], nbits: usize) -> Vec<f32> { let a = interleave_step(nbits) as u64;\n",
            "sl }\n",
        ),
        ..part("to_slots.rs", REFINE, ("let mut sl = vec!", "let mut xm = vec!"), &[])
    },
    Part {
        frame: (
            "pub fn from_slots(slot_llr: &[f32], nbits: usize) -> Vec<f32> { let a = interleave_step(nbits) as u64;\n",
            "}\n",
        ),
        ..part("from_slots.rs", REFINE, ("        (0..nbits)\n", "    }\n}\n\n/// Soft interference"), &[])
    },
    // Its lines on what each data cell is expected to be as sent.
    Part {
        frame: (
            "pub fn sent(sl: &[f32], cons: Constellation, mode: DataMode, dc: usize) -> (Vec<Complex>, Vec<f32>) {
        let gain = mode.gain();
        let (g2, pts, (pts_s, _)) = (gain * gain, cons.points(), scaled(cons, gain));
        let (bps, ncell) = (pts.bps, sl.len() / pts.bps);\n",
            "let _ = (em, ev); (xm, xv) }\n",
        ),
        ..part("sent.rs", REFINE, ("        let mut xm = vec!", "        let p_h = self.p_h;"), &[])
    },
    // Its lines that scale the points and take their mean energy, and its test of a mean.
    Part {
        frame: ("pub fn scaled(cons: Constellation, gain: f32) -> (Points, f32) {\n", "let _ = bps; (pts_s, es) }\n"),
        ..part("scaled.rs", REFINE, ("        let g2 = gain * gain;", "        let map = self.map;"), &[])
    },
    Part {
        frame: ("pub fn loud(x: Complex, es: f32) -> bool { ", " }\n"),
        ..part("loud.rs", REFINE, ("x.norm_sqr() >= SOFT_MIN", " {\n                    soft[g * nc"), &[])
    },
];

const COMPLEX: Change = change("use ion_dsp::dsp::Complex;", "use crate::oracle::dsp::Complex;", 1);
const METHODS: Change = oracle_only(
    "use crate::oracle::dsp::Complex;",
    "use crate::oracle::dsp::Complex;\nuse crate::oracle::methods::*;",
    1,
);

const IN_FRAME: &[Change] = &[
    COMPLEX,
    METHODS,
    change("mod header;", "mod header { include!(concat!(env!(\"OUT_DIR\"), \"/header.rs\")); }", 1),
    oracle_only(".sin()", ".standin_sin()", 4),
    oracle_only(".cos()", ".standin_cos()", 4),
    oracle_only("10f32.powf(self.gain_db() / 20.0)", "crate::standins::gain(self.gain_code as u32)", 1),
    // The caller's boost travels with the map.
    change("    pub gain: f32,\n}", "    pub gain: f32,\n    pub boost: f32,\n}", 1),
    change("gain: 1.0,\n", "gain: 1.0,\n            boost: 1.0,\n", 1),
    change("\nfn ", "\npub fn ", 2),
    change("    tw: Vec<Complex>", "    pub tw: Vec<Complex>", 1),
];

const IN_EST: &[Change] = &[
    COMPLEX,
    METHODS,
    oracle_only(".sin()", ".standin_sin()", 1),
    oracle_only(".exp()", ".standin_exp()", 2),
    oracle_only(".ln()", ".standin_ln()", 3),
    oracle_only(".powi(2)", ".standin_square()", 1),
    oracle_only(".max(", ".standin_max(", 15),
    oracle_only(
        "self.cand.select_nth_unstable_by(k - 1, |a, b| a.0.total_cmp(&b.0));",
        "crate::standins::keep_nearest(&mut self.cand, k);",
        1,
    ),
    // The chosen model's indices, since the values alone don't tell the fallback from 2 2, and the residual of each model tried.
    oracle_only(
        "    pub model: (f64, f64),",
        "    pub model: (f64, f64),\n    pub index: (usize, usize),\n    pub residuals: Vec<f64>,",
        1,
    ),
    oracle_only(
        "model: default_model(l),",
        "model: default_model(l),\n            index: (3, 3),\n            residuals: Vec::new(),",
        1,
    ),
    oracle_only(
        "let mut best = (",
        "self.index = (3, 3);\n        self.residuals.clear();\n        let mut best = (",
        1,
    ),
    oracle_only("if r < best.0 {", "self.residuals.push(r);\n                if r < best.0 {", 1),
    oracle_only(
        "best = (r, (fd, tm), scale);",
        "best = (r, (fd, tm), scale);\n                    self.index = (place(fd, fd_grid), place(tm, &l.tm));",
        1,
    ),
    change("\nfn ", "\npub fn ", 3),
    change("\n    fn ", "\n    pub fn ", 1),
    change("    rf: Vec<f64>,\n    rt: Vec<f64>,", "    pub rf: Vec<f64>,\n    pub rt: Vec<f64>,", 1),
    change("    lc: f32,\n    lg: f32,", "    pub lc: f32,\n    pub lg: f32,", 1),
    change("    start: Vec<usize>,\n    cand: ", "    pub start: Vec<usize>,\n    pub cand: ", 1),
];

const IN_REFINE: &[Change] = &[
    COMPLEX,
    METHODS,
    change("use crate::phy::", "use crate::oracle::phy::", 3),
    oracle_only(".exp()", ".standin_exp()", 3),
    oracle_only(".ln_1p()", ".standin_ln_1p()", 2),
    oracle_only(".max(", ".standin_max(", 4),
    // Besides the likelihoods: the estimator as it ended, and the channel list.
    oracle_only("k: usize) -> Vec<f32> {", "k: usize) -> crate::oracle::Refined {", 1),
    oracle_only("        (0..nbits)\n", "        let llrs = (0..nbits)\n", 1),
    oracle_only(
        "            .collect()\n    }\n}",
        "            .collect();\n        crate::oracle::Refined::new(llrs, est, hbuf, mbuf)\n    }\n}",
        1,
    ),
    change("pub(super) fn new(", "pub fn new(", 1),
    change("\nfn ", "\npub fn ", 3),
    change("\nconst SOFT_MIN", "\npub const SOFT_MIN", 1),
];
