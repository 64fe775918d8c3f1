//! Relations of one device, one after another, each with a controller of its own: the laws of both ends hold of each (`play_both_ends`),
//! if its calls have an activity of which the device has stored no answer. What both ends show was worked out by hand.
use crate::otherwise::{RECORDS, as_planned, station};
use crate::played::{are_sent, are_taken, to_controller, to_device, wait};
use both_ends::{can_meet, play_both_ends};
use configurator::plan_from_json;
use controller_core::State;
use controller_messages::{ControllerOptions, Setup};
use device_core::Local;
use network_world::{End, Move};
use pn_values::demo_identity;
use rattle_std::alloc::Global;
use relations::Phase;
use test_stations::{Station, octets};
use uuid::Uuid;
use world_monitor::{Kind, Net};

/// Units of time of an interval: one millisecond.
const INTERVAL: usize = 32;

/// How many relations a device has, one after another.
const RELATIONS: u16 = 300;

/// The set-up of the controller with this number: its ARUUID and its activity are its own.
fn setup(number: u16) -> Setup {
    let own = |kind: u8| {
        let [high, low] = number.to_be_bytes();
        Uuid::from_bytes([kind, high, low, 1, 1, 1, 1, 1, 1, 1, 1, 1, 1, 1, 1, 1])
    };
    Setup {
        plan: plan_from_json(Global, RECORDS.as_bytes()).ok().expect("a plan"),
        ar: own(1),
        activity: own(2),
        options: ControllerOptions::default(),
    }
}

/// A world that begins at this device, which has no relation, with a controller of this set-up, and in which these moves were made.
fn begun(device: Station, setup: Setup, moves: &[Move]) -> Net {
    assert!(can_meet(&setup, &demo_identity()));
    assert_eq!(device.phase(), None);
    let (world, result) = play_both_ends(Global, device, setup, &demo_identity(), moves);
    assert!(result.is_ok());
    world
}

/// The start-up, from the number of its Connect on: the Connect, two Writes and PrmEnd with their answers, ApplicationReady and its
/// answer. A device that has its address already gets no Set, so its Connect is frame 2, not 4.
fn start_up(connect: usize) -> Vec<Move> {
    let mut moves = Vec::new();
    for number in (0..=connect + 6).step_by(2) {
        moves.extend([to_device(number), to_controller(number + 1)]);
    }
    moves.extend([to_controller(connect + 8), to_device(connect + 9)]);
    moves
}

/// The kinds of the frames of a start-up with a Set, or without.
fn kinds(connect: usize) -> Vec<Kind> {
    let set: &[Kind] = if connect == 4 { &[Kind::Set, Kind::SetDone] } else { &[] };
    let calls = [
        Kind::Connect,
        Kind::Positive,
        Kind::Write,
        Kind::Positive,
        Kind::Write,
        Kind::Positive,
        Kind::PrmEnd,
        Kind::Positive,
        Kind::Ready,
        Kind::Confirm,
    ];
    [&[Kind::Identify, Kind::Found], set, &calls].concat()
}

/// Both ends exchange data, the device has accepted the two records of the plan, and nothing of an earlier relation is shown.
fn are_new(world: &Net) {
    assert_eq!(world.controller().state(), State::Exchanging);
    assert_eq!(world.device().phase(), Some(Phase::Exchanging));
    are_taken(world);
    assert_eq!(world.device().output(2, 1), Some([0, 0].as_slice()));
    assert!(world.controller().alarm().is_none());
}

/// Outputs, inputs and an alarm go through, and then a Release: the frames after the start-up.
fn exchange_and_release(world: &mut Net, connect: usize, value: [u8; 2]) {
    let next = connect + 10;
    let mut moves = vec![Move::Give(2, 1, octets(&value))];
    wait(&mut moves, INTERVAL);
    moves.push(to_device(next));
    moves.extend((0..INTERVAL).map(|_| Move::Tick(End::Device)));
    moves.push(to_controller(next + 1));
    // An alarm, its ACK, its AlarmAck and the ACK of that.
    moves.push(Move::Application(Local::Alarm(1, 1, octets(&value))));
    moves.extend([to_controller(next + 2), to_device(next + 3), to_device(next + 4), to_controller(next + 5)]);
    assert!(world.play(&moves).is_ok());
    assert_eq!(world.device().output(2, 1), Some(value.as_slice()));
    let alarm = world.controller().alarm().expect("an alarm");
    assert_eq!(alarm.alarm_data.octets(), value);
    assert!(world.play(&[Move::Stop, to_device(next + 6), to_controller(next + 7)]).is_ok());
    assert_eq!(world.device().phase(), None);
}

/// What the frames of `exchange_and_release` are.
const EXCHANGED: [Kind; 8] = [
    Kind::Outputs,
    Kind::Inputs,
    Kind::Alarm,
    Kind::Ack,
    Kind::AlarmAck,
    Kind::Ack,
    Kind::Release,
    Kind::Positive,
];

// A device has had a whole start-up, an exchange and a Release. The next controller, with other numbers, begins as the laws require, and
// its relation begins as if it were the first.
#[test]
fn two_relations_one_after_the_other() {
    let mut first = begun(station(as_planned()), setup(1), &start_up(4));
    are_new(&first);
    exchange_and_release(&mut first, 4, [7, 9]);
    are_sent(&first, &[&kinds(4)[..], &EXCHANGED].concat());
    let mut second = begun(first.into_device(), setup(2), &start_up(2));
    are_new(&second);
    exchange_and_release(&mut second, 2, [1, 2]);
    are_sent(&second, &[&kinds(2)[..], &EXCHANGED].concat());
}

// More relations than a device stores answers (of four activities).
#[test]
fn many_relations_one_after_another() {
    let mut device = station(as_planned());
    for number in 1..=RELATIONS {
        let connect = if number == 1 { 4 } else { 2 };
        let mut world = begun(device, setup(number), &start_up(connect));
        are_new(&world);
        exchange_and_release(&mut world, connect, number.to_be_bytes());
        device = world.into_device();
    }
}

// Why the premise stays: to a controller with the activity of the one before, the device, which has answered a later call of it, sends no
// answer.
#[test]
fn an_activity_that_was_used_before_gets_no_answer() {
    let mut first = begun(station(as_planned()), setup(1), &start_up(4));
    exchange_and_release(&mut first, 4, [7, 9]);
    let again = Setup { activity: setup(1).activity, ..setup(2) };
    let world = begun(first.into_device(), again, &start_up(2));
    are_sent(&world, &[Kind::Identify, Kind::Found, Kind::Connect]);
    assert_eq!(world.controller().state(), State::Connecting);
    assert_eq!(world.device().phase(), None);
}
