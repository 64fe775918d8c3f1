//! Tests of a device as a host drives it: each call once if it is accepted, and once for each number that it is refused with.
//!
//! The numbers of refusals are those of `include/nandutable.h`, and the octets those of other programs.
#![cfg(test)]

mod answers;
mod calls;
mod confirmed;
mod cycles;
mod exchange;
mod host;
mod judged;
mod modules;
mod operations;
mod passed;
mod pulls;
mod refusals;
mod served;
mod stations;
mod told;
mod work;
