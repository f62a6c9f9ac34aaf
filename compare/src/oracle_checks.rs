//! Whether the oracle is the program that document 01 describes.

mod bursts;
mod listed;
mod recipes;
mod runs;

use crate::report::Tally;

pub fn run() -> Vec<Tally> {
    vec![bursts::check(), listed::check(), recipes::check(), runs::check()]
}
