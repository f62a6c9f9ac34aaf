//! The station's way to the proved refinement of HF bursts: lay a burst out as a record, have it judged, read the answer.
//!
//! The judging is done by `librecord.a`, a C library written in Rattle and proved to meet its contract. This crate adds
//! types around its three functions and keeps nothing between calls, so several threads may judge at once.
//!
//! ```
//! use niyumbek_host::{refine, Burst, Constellation, Layout};
//!
//! // Document 01's printed example: nothing received, one data symbol.
//! let record = Burst::new(Layout::Quarter, Constellation::Qpsk, 1).to_record()?;
//! assert_eq!(record.len(), 2530);
//! assert_eq!(record[..6], [0x70, 0x01, 0x05, 0x00, 0x00, 0x00]);
//!
//! let answer = refine(&record)?;
//! assert_eq!((answer.model, answer.scale, answer.spoilt), ((0, 0), 1.0, 0));
//! assert_eq!(answer.likelihoods, [0.0; 6]);
//! # Ok::<(), Box<dyn std::error::Error>>(())
//! ```
#![deny(missing_docs, unsafe_code)]

mod answer;
mod burst;
mod ffi;
mod judge;
mod layout;
mod record;
mod refusal;
mod words;

pub use answer::{Answer, Estimate};
pub use burst::Burst;
pub use judge::{answer_length, refine, refine_into, refine_with_channel};
pub use layout::{Constellation, Layout};
pub use record::BurstError;
pub use refusal::Refusal;

/// Bytes of the longest record.
pub const MAX_RECORD: usize = 8192;

/// Bytes that hold the answer to any record.
pub const MAX_ANSWER: usize = 16_354;

/// Bytes that hold the estimates of any record.
pub const MAX_CHANNEL: usize = 8_172;
