//! Plays schedules of both ends and compares each move with the model. The words are the number of schedules for each hundredth, the moves of
//! each, and the first seed: `returns 5 2000 1` plays some million moves. Its status is 1 if anything differs.
use test_returns::{jobs, play_all, report};

fn main() {
    let numbers: Vec<u64> = std::env::args().skip(1).filter_map(|word| word.parse().ok()).collect();
    let number = |at: usize, usual: u64| numbers.get(at).copied().unwrap_or(usual);
    let found = play_all(&jobs(number(0, 5), number(1, 2_000), number(2, 1)));
    println!("{}", report(&found));
    std::process::exit(i32::from(!found.differences.is_empty()));
}
