//! Worlds in which the controller's application reads and writes records while data is exchanged: a row of moves that was worked out by
//! hand, and schedules from seeds, in which the laws of both ends are computed after each move (`world_monitor`).
use crate::otherwise::{as_planned, make, world};
use crate::played::{played, start_up, to_controller, to_device};
use controller_core::State;
use network_world::Move;
use pn_values::demo_identity;
use relations::Phase;
use test_stations::octets;
use world_monitor::{Choice, Kind, Schedule};

/// How many schedules are played, and how many moves each has after the start-up.
const SEEDS: u64 = 200;
const MOVES: usize = 1_000;

/// I&M0 and I&M1, a parameter of the plan, one that does not exist, the diagnosis of the submodule, and the modules that are plugged.
const INDICES: [u16; 6] = [0xAFF0, 0xAFF1, 1, 7, 0x800A, 0xF000];

/// The moves of a start-up after which both ends exchange data: 18 frames were sent.
fn exchanging() -> Vec<Move> {
    let mut moves = start_up();
    moves.push(to_device(17));
    moves
}

// I&M0 of slot 0 is read: the call is frame 18, its answer frame 19. It begins with the block of I&M0, which has the VendorID.
#[test]
fn a_record_is_read() {
    let mut moves = exchanging();
    moves.extend([Move::Read(0, 1, 0xAFF0), to_device(18), to_controller(19)]);
    let world = played(&moves);
    let answer = world.controller().answer().expect("an answer");
    assert!(answer.status.is_done());
    assert_eq!(answer.request.index, 0xAFF0);
    let vendor = demo_identity().vendor_id.to_be_bytes();
    let record = world.controller().record();
    assert_eq!(record.len(), 60);
    assert_eq!(record.get(..8), Some([0, 0x20, 0, 56, 1, 0, vendor[0], vendor[1]].as_slice()));
    assert!(world.controller().waiting().is_none());
    assert_eq!(world.controller().state(), State::Exchanging);
    assert_eq!(world.device().phase(), Some(Phase::Exchanging));
}

// A parameter is written that the station has, and one that it does not have. The first is kept after those of the plan, the second is
// refused; neither ends the relation. A second request is refused while the first waits.
#[test]
fn records_are_written() {
    let mut moves = exchanging();
    moves.extend([
        Move::Write(1, 1, 2, octets(&[0, 0, 1, 44])),
        Move::Write(1, 1, 2, octets(&[9, 9, 9, 9])),
        to_device(18),
        to_device(18),
        to_controller(19),
        to_controller(20),
    ]);
    let world = played(&moves);
    assert!(world.controller().answer().expect("an answer").status.is_done());
    let taken: Vec<&[u8]> = world.device().taken().iter().map(|record| record.value.as_slice()).collect();
    assert_eq!(taken[..2], [[0, 0, 0, 100].as_slice(), &[0, 0, 0, 200]]);
    assert!(!taken.contains(&[9, 9, 9, 9].as_slice()));
    moves.extend([Move::Write(1, 1, 7, octets(&[1])), to_device(21), to_controller(22)]);
    let world = played(&moves);
    assert!(!world.controller().answer().expect("an answer").status.is_done());
    assert!(world.controller().refusal().is_some());
    assert_eq!(world.controller().state(), State::Exchanging);
    assert_eq!(world.device().phase(), Some(Phase::Exchanging));
}

/// A request of the application in three of a hundred moves, else what the schedule chooses.
fn choose(schedule: &mut Schedule, turn: usize, count: usize, raised: u16) -> Choice {
    let index = INDICES[turn / 30 % INDICES.len()];
    match turn % 30 {
        7 => Choice::Read(index),
        // A parameter of the plan would be kept after its records.
        17 if index != 1 => Choice::Write(index, [0, turn as u8]),
        _ => schedule.choose(count, raised),
    }
}

// In schedules from seeds with requests of the application no law is broken; requests are answered while data is exchanged.
#[test]
fn requests_of_the_application_break_no_law() {
    let mut answered = 0;
    for seed in 0..SEEDS {
        let (mut watched, mut schedule) = (world(as_planned()), Schedule::new(seed));
        let mut number = 0;
        while number < watched.count() {
            let end = watched.other_end(number);
            make(&mut watched, Choice::Deliver(end, number));
            number += 1;
        }
        assert!(watched.told().is_exchanging());
        for turn in 0..MOVES {
            let choice = choose(&mut schedule, turn, watched.count(), watched.raised());
            make(&mut watched, choice);
        }
        assert!(watched.are_kept());
        answered += (number..watched.count()).filter(|&sent| watched.kind(sent) == Kind::Positive).count();
    }
    assert!(answered > 100, "{answered} requests were answered");
}
