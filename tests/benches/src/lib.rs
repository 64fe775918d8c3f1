//! The work that `bench/figures` counts: blocks that are read and written, commits and starts of the journal, and the steps of a device in
//! an exchange. Each has a program in `src/bin`, which `bench/figures` runs, and a test, which does the work once.

pub mod blocks;
pub mod exchange;
pub mod journal;

/// The exit status of a program that was not given two numbers.
pub const USAGE: u8 = 64;

/// The two numbers of the command line. `None` if it has other arguments.
pub fn two_numbers() -> Option<(u32, u32)> {
    let mut arguments = std::env::args().skip(1);
    let numbers = (
        arguments.next()?.parse().ok()?,
        arguments.next()?.parse().ok()?,
    );
    arguments.next().is_none().then_some(numbers)
}
