//! Schedules of both ends beside the model, and plants that are wrong, which must be found.
use test_returns::{FAULTS, jobs, jobs_with, play_all, report};

/// How many schedules the test plays for each hundredth, and how many moves each has.
const SCHEDULES: u64 = 1;
const MOVES: u64 = 1_000;

#[test]
fn both_ends_do_what_the_model_does() {
    let found = play_all(&jobs(SCHEDULES, MOVES, 1));
    println!("{}", report(&found));
    assert!(found.differences.is_empty(), "{}", report(&found));
    assert!(found.counts["moves"] >= 140_000);
    assert!(found.counts["relations"] >= 2_000);
}

#[test]
fn each_wrong_plant_is_found() {
    for fault in FAULTS {
        let found = play_all(&jobs_with(fault, 24, 600));
        println!("{fault:?}: {}", found.differences.first().map_or("", |text| text.lines().next().unwrap_or("")));
        assert!(!found.differences.is_empty(), "no schedule shows {fault:?}");
    }
}
