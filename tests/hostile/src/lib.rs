//! Tests of broken frames: requests of DCP, and frames of a relation. None is accepted, and each leaves the device as it was.
//!
//! Requests of DCP, and frames of each kind that a relation knows, in each phase: cut at each length, and with each length and count in
//! them at 0, at 1 and at its greatest. (Connects with such numbers in each of their fields are those of table_connect; packets of ARP
//! and Read Implicit stand in test_call.)
#![cfg(test)]

mod answers;
mod bent;
mod calls;
mod cut;
mod cycles;
mod frames;
mod requests;
mod samples;
mod stations;
