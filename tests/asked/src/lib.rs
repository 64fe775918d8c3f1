//! Tests of the records that the application answers. The expected octets were written by hand from the standard's tables.
#![cfg(test)]

mod answers;
mod device;
mod four;
mod judging;
mod machine;
mod names;
mod options;
mod samples;
