//! Tests of the public calls of blocks and records: what no contract says, worked rows and octets from outside.
//!
//! Blocks, their lists, the records and the differences that are made of them, and the calls that read and write records.
#![cfg(test)]

mod blocks;
mod diagnosis;
mod differences;
mod listings;
mod lists;
mod low_alarms;
mod named;
mod ports;
mod reads;
mod records;
mod statuses;
mod within;
mod writes;
