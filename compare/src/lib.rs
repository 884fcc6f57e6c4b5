//! The comparison of the proved tile decoder with the original in Rust: generators of streams, strips
//! and planes, the original's answers in document 01's terms, models of the writer and of the bits that a
//! record takes, and the driver that holds the library's answers against them.

// The original names its core crate; here that is this crate itself.
extern crate self as flashraw_core;

#[path = "original/flashraw_core.rs"]
mod core_stand_in;
#[path = "original/sony_arw6.rs"]
#[allow(dead_code)]
#[rustfmt::skip]
mod original;
#[path = "original/sony_arw6_curve.rs"]
mod sony_arw6_curve;

pub use core_stand_in::{par, Error, Result};

pub mod bench;
pub mod bits;
pub mod check;
pub mod damage;
pub mod encoder;
pub mod faults;
pub mod inspected;
pub mod largest;
pub mod oracle;
pub mod ordinary;
pub mod ours;
pub mod packets;
#[cfg(test)]
mod points;
// Document 01's recovery as the crate in rust/ has it.
pub mod records;
#[path = "../../rust/src/recovery.rs"]
pub mod recovery;
pub mod rng;
pub mod run;
pub mod size;
pub mod stages;
pub mod streams;
pub mod strips;
pub mod sweep;
pub mod used;
pub mod vectors;
pub mod watch;
pub mod whole;
pub mod write;
pub mod writing;
pub mod written;
