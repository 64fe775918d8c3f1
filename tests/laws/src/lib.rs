//! For each law of docs/PROVED.md that has no broken world elsewhere: what one sees of a real run, on which the law holds, and the same with one
//! thing changed, on which it must not hold. A reading of a law that accepts everything passes no test here. docs/TESTED.md lists the others.
//!
//! Each law is read from octets and from what both ends show, and shares no line with its definition in crates/*/specs.
#![cfg(test)]

mod answers;
mod cyclic;
mod exchange;
mod inputs;
mod interval;
mod owed;
mod plant;
mod refused;
mod reports;
mod settings;
mod times;
