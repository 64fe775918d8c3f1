//! `bench_journal COMMITS STARTS` makes COMMITS commits of a name over a blank flash in memory, and then starts STARTS times on it. It
//! prints how many of the commits were done, and the length of the name that the last start read. `bench/figures/measure.py` counts its
//! instructions.
use std::process::ExitCode;
use test_benches::journal::{Flash, commit_times, start_times};
use test_benches::{USAGE, two_numbers};

fn main() -> ExitCode {
    let Some((commits, starts)) = two_numbers() else {
        println!("usage: bench_journal COMMITS STARTS");
        return ExitCode::from(USAGE);
    };
    let mut flash = Flash::blank();
    let done = commit_times(&mut flash, commits);
    let octets = start_times(&mut flash, starts);
    println!("{done} commits done; a name of {octets} octets");
    ExitCode::SUCCESS
}
