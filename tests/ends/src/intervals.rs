//! Intervals at which the CycleCounter of a frame, the units modulo 65,536, is not newer than that of the frame before: from 1 to 61,440
//! ahead of it. `ci/launcher-test` has the warnings of the same plans.

use super::{PUMP, SET_PUMP_1, START, output};
use rattle_std::alloc::Global;

/// How a relation with these factors ends in that many intervals, in each of which every frame is delivered.
fn ends(clock: u32, ratio: u32, hold: u32, intervals: usize) -> String {
    let times = format!("\"SendClockFactor\":{clock},\"ReductionRatio\":{ratio},\"DataHoldFactor\":{hold}");
    let plan = PUMP.replace("\"SendClockFactor\":32,\"ReductionRatio\":1,\"DataHoldFactor\":3", &times);
    assert_ne!(plan, PUMP);
    let mut script = format!("{SET_PUMP_1}\nconfig {plan}\n{START}\n{}", "deliver\n".repeat(6));
    for _ in 0..intervals {
        script += &format!("tick {}\ndeliver\n", clock * ratio);
    }
    let (result, text) = output(Global, script.as_bytes());
    assert_eq!(result, Ok(()));
    let text = std::str::from_utf8(text.as_slice()).expect("text");
    let states: Vec<&str> = text.lines().filter(|line| line.starts_with("state ")).collect();
    assert_eq!(states[6], "state exchanging");
    states.last().expect("a state").to_string()
}

#[test]
fn a_long_interval_ends_by_data_hold() {
    // One frame in this many is newer; a relation whose DataHoldFactor is not greater ends.
    for (ratio, newer) in [(481, 2), (496, 2), (497, 3), (504, 4), (510, 16)] {
        let intervals = 2 * newer as usize + 2;
        assert_eq!(ends(128, ratio, newer, intervals), "state ended 4", "{ratio}");
        assert_eq!(ends(128, ratio, newer + 1, intervals), "state exchanging", "{ratio}");
    }
    assert_eq!(ends(128, 512, 8, 10), "state ended 4");
    assert_eq!(ends(128, 480, 2, 10), "state exchanging");
}
