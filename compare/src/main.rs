//! Compares the verified functions bit for bit with the ion-hf source.
//!
//! `compare` compares; a word does one thing more or instead: see `usage` and the README.

// Without the source only the stored answers are replayed.
#![cfg_attr(not(ion_hf), allow(dead_code))]

#[cfg(ion_hf)]
mod bench;
mod bits;
#[cfg(ion_hf)]
mod clock;
mod entries;
#[cfg(ion_hf)]
mod groups;
#[cfg(ion_hf)]
mod heard;
mod inputs;
#[cfg(ion_hf)]
mod oracle;
#[cfg(ion_hf)]
mod oracle_checks;
mod probes;
#[cfg(ion_hf)]
mod published;
#[cfg(ion_hf)]
mod records;
mod report;
mod rng;
#[cfg(ion_hf)]
mod stack;
mod standins;
mod stored;
#[cfg(ion_hf)]
mod timing;

use std::env;
use std::process::ExitCode;
#[cfg(ion_hf)]
use std::thread::Builder;

use report::Tally;

fn main() -> ExitCode {
    let words: Vec<String> = env::args().skip(1).collect();
    match words.iter().map(String::as_str).collect::<Vec<_>>()[..] {
        [] => compare(),
        #[cfg(ion_hf)]
        [word, ref rest @ ..] => with_source(word, rest).map_or_else(usage, passed),
        #[cfg(not(ion_hf))]
        _ => usage(),
    }
}

/// None when there is no such word.
#[cfg(ion_hf)]
fn with_source(word: &str, rest: &[&str]) -> Option<bool> {
    match (word, rest) {
        ("time", []) => timing::print(),
        ("stack", []) => stack::print(),
        ("bench", []) => return Some(bench::print()),
        ("stored", []) => stored::lines().for_each(|line| println!("{line}")),
        ("soak", [count]) => return Some(records::soak(number(count), 2)),
        ("soak", [count, seed]) => return Some(records::soak(number(count), number(seed))),
        ("store", []) => records::stored::store().expect("the file can be written"),
        ("cases", [count, file]) => records::cases::write(number(count), file).expect("the file can be written"),
        ("called", [file]) => return Some(records::cases::call(file).expect("the file can be read")),
        ("burst", [count]) => return Some(report::total(&[records::program::compare(number(count))])),
        _ => return None,
    }
    Some(true)
}

fn usage() -> ExitCode {
    eprintln!(
        "usage: compare [time | stack | bench | soak N [seed] | store | stored | burst N | cases N FILE | called FILE]"
    );
    eprintln!("each word needs the ion-hf source at build time");
    ExitCode::from(2)
}

#[cfg(ion_hf)]
fn number(word: &str) -> u64 {
    word.parse().unwrap_or_else(|_| panic!("{word} is no number"))
}

fn passed(all: bool) -> ExitCode {
    if all { ExitCode::SUCCESS } else { ExitCode::FAILURE }
}

fn compare() -> ExitCode {
    let mut tallies = from_source();
    tallies.extend(stored::replay());
    tallies.push(entries::replay());
    tallies.iter().for_each(Tally::print);
    passed(report::total(&tallies))
}

#[cfg(ion_hf)]
fn from_source() -> Vec<Tally> {
    let mut tallies = oracle_checks::run();
    // The records on one processor, the groups on another. The stack is the main thread's usual one.
    let records = Builder::new().stack_size(8 << 20).spawn(records::compare).expect("a thread can be started");
    tallies.extend(groups::run());
    tallies.extend(records.join().expect("the records were compared"));
    tallies.extend(stored::kept());
    tallies
}

#[cfg(not(ion_hf))]
fn from_source() -> Vec<Tally> {
    println!("built without the ion-hf source: stored answers only");
    Vec::new()
}
