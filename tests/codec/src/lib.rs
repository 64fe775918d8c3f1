//! Tests of the codecs' public calls: what no contract says, worked rows and octets from outside.
//!
//! A module for each codec, by what it reads and writes. A test hands over to a function what it does often, as what a codec
//! promises of each call is then read there once.
#![cfg(test)]

use frame_codec::{FrameFault, Layered, read};

mod dcp;
mod fields;
mod frames;
mod internet;
mod reckoned;

/// A frame is read so.
fn reads(frame: &[u8], wanted: Result<Layered<'_>, FrameFault>) {
    assert_eq!(read(frame), wanted, "{} octets", frame.len());
}
