//! The headline that is read from octets (`octets_law::live`), written once more in plain Rust: random scripts of Sets, Connects, Writes,
//! lists, repeats, cuts and faults are given to the device, and what it was given and sent has to explain its settings. Wrong devices,
//! made by changing what a right one sent or has, have to be refused.
#![cfg(test)]

mod judge;
mod lives;
mod octets;
mod scripts;
mod wrong;
