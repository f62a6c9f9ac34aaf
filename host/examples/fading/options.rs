//! The words after the command.

use std::env;
use std::error::Error;
use std::path::PathBuf;

pub struct Options {
    pub seed: u64,
    pub record: Option<PathBuf>,
    pub png: Option<PathBuf>,
}

impl Options {
    pub fn read() -> Result<Options, Box<dyn Error>> {
        let mut options = Options { seed: 3, record: None, png: None };
        let mut words = env::args().skip(1);
        while let Some(word) = words.next() {
            let mut value = || words.next().ok_or(format!("nothing after {word}"));
            match word.as_str() {
                "--seed" => options.seed = value()?.parse()?,
                "--record" => options.record = Some(value()?.into()),
                _ if word.starts_with('-') || options.png.is_some() => {
                    return Err("usage: fading [--seed N] [--record FILE] [PNG]".into())
                }
                _ => options.png = Some(word.into()),
            }
        }
        Ok(options)
    }
}
