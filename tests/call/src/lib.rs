//! Tests of ARP, IPv4, UDP and RPC frames that are cut short or bent: what becomes of each is what has to.
//!
//! Frames that are cut or bent are handed to a device that has answered calls. What has to become of each is computed by the
//! rules of the standards alone (`fates`), and a refused one leaves the device as it was (`stations`).
#![cfg(test)]

mod bent;
mod cut;
mod fates;
mod numbers;
mod samples;
mod stations;
