//! A burst over a fading two-path channel, judged round after round.
//!
//! ```text
//! cargo run --example fading -- [--seed N] [--record FILE] [PNG]
//! ```
//!
//! Every round's priors come from the last round's likelihoods, by a decoder of the simplest code. FILE receives the
//! last round's record, PNG a picture of the channel: true, and as the first and the last round estimate it.

mod channel;
mod code;
mod complex;
mod font;
mod options;
mod panel;
mod png;
mod random;
mod run;
mod sent;

use std::error::Error;
use std::fs;

use options::Options;
use random::Random;
use run::{Round, Run, LAYOUT, NOISE, NSYM};

const ROUNDS: usize = 5;

fn main() -> Result<(), Box<dyn Error>> {
    let options = Options::read()?;
    let run = Run::new(&mut Random(options.seed));
    let noise = 10.0 * NOISE.log10();
    println!(
        "{NSYM} data symbols of QPSK on {} carriers, two fading paths, noise at {noise:.0} dB\n",
        LAYOUT.carriers()
    );
    println!("round  model  scale  spoilt  bit errors  message errors  mean |likelihood|  channel error");
    let mut rounds: Vec<Round> = Vec::new();
    for number in 1..=ROUNDS {
        let round = run.judge(rounds.last())?;
        println!("{number:5}  {}", run.summary(&round));
        rounds.push(round);
    }
    let (first, last) = (&rounds[0], &rounds[ROUNDS - 1]);
    println!();
    run.print(&[run.truth(), run.panel(ROUNDS, last)]);
    if let Some(path) = options.record {
        fs::write(path, &last.record)?;
    }
    if let Some(path) = options.png {
        let panels = [run.truth(), run.panel(1, first), run.panel(ROUNDS, last)];
        fs::write(path, panel::picture(&panels).to_png())?;
    }
    Ok(())
}
