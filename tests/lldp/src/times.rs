//! When a station announces itself, and when it forgets.

use super::{STATION, SWITCH, known, octets};
use lldp::Neighbours;

/// A station that has heard the switch for this many seconds.
fn with_switch(seconds: u16) -> Neighbours {
    let mut neighbours = Neighbours::new(STATION);
    let frame = SWITCH.replacen("06020014", &format!("0602{seconds:04x}"), 1);
    neighbours.hear(&octets(&frame));
    neighbours
}

#[test]
fn an_announcement_each_five_seconds() {
    let mut neighbours = Neighbours::new(STATION);
    let mut sent = Vec::new();
    for tick in 0..500_000 {
        if neighbours.is_sending() {
            sent.push(tick);
        }
        assert!(!neighbours.tick());
    }
    assert_eq!(sent, [0, 160_000, 320_000, 480_000]);
}

#[test]
fn a_neighbour_is_forgotten_when_its_time_is_over() {
    for seconds in [1, 20] {
        let mut neighbours = with_switch(seconds);
        for tick in 1..u32::from(seconds) * 32_000 {
            assert!(!neighbours.tick(), "{tick}");
        }
        assert!(known(&neighbours).is_some());
        assert!(neighbours.tick());
        assert_eq!(known(&neighbours), None);
        assert!(!neighbours.tick());
    }
}

/// A leap of ticks and as many ticks do the same.
#[test]
fn leaps_are_ticks() {
    for seconds in [0, 1, 5, 6, 20] {
        let (mut leaps, mut ticks) = (with_switch(seconds), with_switch(seconds));
        let mut passed = 0;
        while passed < 1_000_000 {
            let due = leaps.due_in();
            leaps.pass(due - 1);
            for _ in 1..due {
                assert!(!ticks.is_sending());
                assert!(!ticks.tick());
            }
            assert_eq!(leaps.is_sending(), ticks.is_sending());
            let (sends, forgets) = (leaps.is_sending(), leaps.tick());
            assert_eq!(forgets, ticks.tick());
            assert!(sends || forgets, "the tick that is due does something");
            assert_eq!(known(&leaps), known(&ticks));
            passed += due;
        }
    }
}

/// The longest lifetime is 65,535 seconds.
#[test]
fn the_longest_lifetime() {
    let mut neighbours = with_switch(u16::MAX);
    let mut passed = 0_u64;
    while known(&neighbours).is_some() {
        let due = neighbours.due_in();
        neighbours.pass(due - 1);
        neighbours.tick();
        passed += u64::from(due);
    }
    assert_eq!(passed, 65_535 * 32_000);
}
