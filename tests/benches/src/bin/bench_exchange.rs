//! `bench_exchange` is the device whose steps `bench/figures/exchange.py` counts. The lines on standard input are those of a script's frames, units of time,
//! inputs and alarms of subslot 1:
//!
//! ```text
//! frame OCTETS       a frame comes
//! tick UNITS         this many units of time go by
//! input SLOT OCTETS  the application gives an input
//! alarm SLOT OCTETS  the application raises an alarm
//! ```
//!
//! Octets are in hex. It prints how many events were done, how many frames were sent since the last frame that was neither cyclic nor an
//! alarm, how many octets they had, and their sum. `bench/figures/exchange.rs`, which does the same work in one file, must print the same.
use std::io::{self, ErrorKind};
use test_benches::exchange::{Tally, Turns};

fn main() -> io::Result<()> {
    let wrong = || io::Error::from(ErrorKind::InvalidData);
    let mut turns = Turns::new().ok_or_else(wrong)?;
    for line in io::stdin().lines() {
        turns.take_line(&line?).ok_or_else(wrong)?;
    }
    let Tally {
        done,
        frames,
        octets,
        sum,
    } = turns.tally;
    println!("{done} events done; {frames} frames of {octets} octets in all, whose sum is {sum}");
    Ok(())
}
