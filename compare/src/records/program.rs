//! The program `burst`: a record to its standard input, and what it prints held against the oracle's lines.

use std::io::{ErrorKind, Read, Write};
use std::path::Path;
use std::process::{Command, Stdio};
use std::thread;
use std::time::Duration;

use crate::bits::Bits;
use crate::report::Tally;
use crate::rng::Rng;

use super::expected::answer;
use super::run;

pub const FILE: &str = concat!(env!("CARGO_MANIFEST_DIR"), "/../target/bin/burst");
const SEED: u64 = 4;
/// After each of the first short writes, so that the program reads before the next.
const PAUSE: Duration = Duration::from_millis(1);
const PAUSES: usize = 20;

/// One record in four comes in short writes.
pub fn compare(count: u64) -> Tally {
    let mut t = Tally::new("program burst");
    t.same("the program is there", &[], Path::new(FILE).is_file(), true);
    if t.different > 0 {
        return t;
    }
    let mut rng = Rng::new(SEED);
    for i in 0..count {
        let record = run::case(SEED, i).1.record;
        let short = if i % 4 == 0 { rng.between(1, 400) as usize } else { record.len().max(1) };
        let (printed, done) = printed(&record, short).expect("the program runs");
        t.same("exit", &[SEED, i], done, true);
        t.bytes("printed", &[SEED, i], &printed, lines(&record).as_bytes());
    }
    t
}

/// What the program prints, and whether it ended well.
fn printed(record: &[u8], short: usize) -> std::io::Result<(Vec<u8>, bool)> {
    let mut child = Command::new(FILE).stdin(Stdio::piped()).stdout(Stdio::piped()).spawn()?;
    let mut input = child.stdin.take().expect("a pipe");
    for (i, piece) in record.chunks(short).enumerate() {
        match input.write_all(piece) {
            // It need not read all of a record that is too long.
            Err(e) if e.kind() == ErrorKind::BrokenPipe => break,
            other => other?,
        }
        if piece.len() < record.len() && i < PAUSES {
            thread::sleep(PAUSE);
        }
    }
    drop(input);
    let mut text = Vec::new();
    child.stdout.take().expect("a pipe").read_to_end(&mut text)?;
    Ok((text, child.wait()?.success()))
}

fn lines(record: &[u8]) -> String {
    let a = match answer(record, |_| true) {
        Ok(a) => a,
        Err(n) => return format!("refused {n}\n"),
    };
    let r = &a.refined;
    let (fd, tm) = r.est.index;
    let mut text = format!("bits {} model {fd} {tm} scale {} ", a.burst.bits(), hex(r.est.mse_scale));
    text += &format!("spoilt {}\n", r.spoilt());
    r.llrs.iter().for_each(|&v| text += &format!("{}\n", hex(v)));
    text
}

/// Either zero without its sign.
fn hex(x: f32) -> String {
    format!("{:08X}", if x == 0.0 { 0 } else { x.bits() })
}
