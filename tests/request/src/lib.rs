//! Tests of calls, and of what a Connect asks for: what is read of the octets that a controller sends, and what is refused first; of
//! cyclic data; and of the PDUs of alarms, and of how they are exchanged.
//!
//! Calls; what is read of the octets of a Connect, and the first fault of others; cyclic data; and the PDUs of alarms.
#![cfg(test)]

mod alarms;
mod blocks;
mod calls;
mod cyclic;
mod faults;
mod intervals;
mod opening;
mod read;
