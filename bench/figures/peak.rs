// Runs a program, and says on standard error what its peak memory was, in KiB. A process takes over the peak of the one that
// started it, so this one, which is small, runs between a large one and the program that is measured.
use std::env::args;
use std::process::{Command, ExitCode};

/// `struct rusage` of Linux on 64 bits: two times of two words each, the peak in KiB, and 13 words more.
type Usage = [i64; 18];

/// The children that were waited for.
const RUSAGE_CHILDREN: i32 = -1;

extern "C" {
    fn getrusage(who: i32, usage: *mut Usage) -> i32;
}

fn main() -> ExitCode {
    let words: Vec<String> = args().skip(1).collect();
    let [program, words @ ..] = words.as_slice() else {
        return ExitCode::from(64);
    };
    match Command::new(program).args(words).status() {
        Ok(status) if status.success() => {}
        _ => return ExitCode::FAILURE,
    }
    let mut usage: Usage = [0; 18];
    if unsafe { getrusage(RUSAGE_CHILDREN, &mut usage) } != 0 {
        return ExitCode::FAILURE;
    }
    eprintln!("{}", usage[4]);
    ExitCode::SUCCESS
}
