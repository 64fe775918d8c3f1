//! Worlds that are begun and played in one call (`play_both_ends`), over a network that loses frames. Each frame has its number among all
//! that were sent; a frame that is not delivered is lost. What both ends must show was worked out by hand.
use crate::otherwise::{RECORDS, as_planned, station, station_with};
use both_ends::play_both_ends;
use configurator::plan_from_json;
use controller_core::{Cause, State};
use controller_messages::{ControllerOptions, Setup};
use device_core::Local;
use pn_values::{ParameterRecord, Real, demo_identity};
use network_world::{End, Move};
use rattle_std::alloc::Global;
use relations::{DeviceOptions, Phase};
use test_stations::{Station, octets};
use uuid::Uuid;
use both_ends::can_meet;
use world_monitor::{Kind, Net};

/// Units of time after which the controller sends a request again: one second.
const AGAIN: usize = 32_000;

/// Units of time of an interval: one millisecond.
const INTERVAL: usize = 32;

fn setup(catalogue: &str) -> Setup {
    setup_with(catalogue, ControllerOptions::default())
}

fn setup_with(catalogue: &str, options: ControllerOptions) -> Setup {
    let plan = plan_from_json(Global, catalogue.as_bytes())
        .ok()
        .expect("a plan");
    Setup {
        plan,
        ar: Uuid::from_bytes([1; 16]),
        activity: Uuid::from_bytes([2; 16]),
        options,
    }
}

/// What comes of these moves, at the station as planned and a controller of its plan.
pub(crate) fn played(moves: &[Move]) -> Net {
    played_with(as_planned(), RECORDS, moves)
}

/// What comes of these moves, at a station with these modules and a controller of the plan of a catalogue.
fn played_with(real: Real, catalogue: &str, moves: &[Move]) -> Net {
    played_at(station(real), catalogue, moves)
}

/// What comes of these moves, at this station and a controller of the plan of a catalogue.
fn played_at(device: Station, catalogue: &str, moves: &[Move]) -> Net {
    played_by(device, setup(catalogue), moves)
}

/// What comes of these moves, at this station and a controller of this set-up.
fn played_by(device: Station, setup: Setup, moves: &[Move]) -> Net {
    assert!(can_meet(&setup, &demo_identity()));
    let (world, result) = play_both_ends(Global, device, setup, &demo_identity(), moves);
    assert!(result.is_ok());
    world
}

pub(crate) fn to_device(number: usize) -> Move {
    Move::Deliver(End::Device, number)
}

pub(crate) fn to_controller(number: usize) -> Move {
    Move::Deliver(End::Controller, number)
}

/// So many units of time at the controller.
pub(crate) fn wait(moves: &mut Vec<Move>, units: usize) {
    moves.extend((0..units).map(|_| Move::Tick(End::Controller)));
}

/// These frames were sent, in this order, and no other.
pub(crate) fn are_sent(world: &Net, wanted: &[Kind]) {
    let frames = (0..).map_while(|number| world.sent(number));
    let kinds: Vec<Kind> = frames.map(|frame| Kind::of(frame.as_slice())).collect();
    assert_eq!(kinds, wanted);
}

/// The records that the device took: the two of the plan, in its order.
pub(crate) fn are_taken(world: &Net) {
    let taken: Vec<(u16, &[u8])> = world
        .device()
        .taken()
        .iter()
        .map(|record| (record.index, record.value.as_slice()))
        .collect();
    assert_eq!(
        taken,
        [
            (1, [0, 0, 0, 100].as_slice()),
            (2, [0, 0, 0, 200].as_slice())
        ]
    );
}

/// What a start-up sends that loses the first Identify, the first Set and the answer to the first Connect.
const START_UP: [Kind; 18] = [
    Kind::Identify,
    Kind::Identify,
    Kind::Found,
    Kind::Set,
    Kind::Set,
    Kind::SetDone,
    Kind::Connect,
    Kind::Positive,
    Kind::Connect,
    Kind::Positive,
    Kind::Write,
    Kind::Positive,
    Kind::Write,
    Kind::Positive,
    Kind::PrmEnd,
    Kind::Positive,
    Kind::Ready,
    Kind::Confirm,
];

/// The moves of that start-up up to its ApplicationReady, frame 16, which the controller answers with frame 17.
pub(crate) fn start_up() -> Vec<Move> {
    let mut moves = Vec::new();
    // Frame 0, the Identify, is lost, and sent again as frame 1.
    wait(&mut moves, AGAIN);
    moves.extend([to_device(1), to_controller(2)]);
    // Frame 3, the Set, is lost, and sent again as frame 4.
    wait(&mut moves, AGAIN);
    moves.extend([to_device(4), to_controller(5), to_device(6)]);
    // Frame 7, the answer to the Connect, is lost. The Connect is sent again as frame 8, and answered again.
    wait(&mut moves, AGAIN);
    moves.extend([to_device(8), to_controller(9)]);
    moves.extend([to_device(10), to_controller(11)]);
    moves.extend([to_device(12), to_controller(13)]);
    moves.extend([to_device(14), to_controller(15), to_controller(16)]);
    moves
}

// Three requests and an answer are lost and sent again. Both ends exchange data, and the device took each record once.
#[test]
fn a_start_up_over_a_network_that_loses_frames() {
    let mut moves = start_up();
    moves.push(to_device(17));
    let world = played(&moves);
    are_sent(&world, &START_UP);
    assert_eq!(world.controller().state(), State::Exchanging);
    assert_eq!(world.device().phase(), Some(Phase::Exchanging));
    are_taken(&world);
    assert_eq!(world.device().output(2, 1), Some([0, 0].as_slice()));
    assert!(world.controller().alarm().is_none());
}

// The answer to ApplicationReady is lost: the controller exchanges data, and the device does not yet.
#[test]
fn the_device_does_not_exchange_before_its_answer_came() {
    let world = played(&start_up());
    are_sent(&world, &START_UP);
    assert_eq!(world.controller().state(), State::Exchanging);
    assert_eq!(world.device().phase(), Some(Phase::Awaiting));
    are_taken(&world);
}

// The application says when it is ready: ApplicationReady follows its word, whatever comes between, and a status of its inputs changes
// nothing of that.
#[test]
fn a_start_up_whose_application_is_ready_later() {
    let options = DeviceOptions { ready_by_application: true, ..DeviceOptions::default() };
    let mut moves = start_up();
    // Frame 16, ApplicationReady, is not there yet: nothing is delivered.
    moves.extend([Move::Application(Local::Status(1, 1, false)), to_device(14), to_device(17)]);
    let waits = played_at(station_with(as_planned(), options), RECORDS, &moves);
    // PrmEnd is answered again as frame 16.
    are_sent(&waits, &[&START_UP[..16], &[Kind::Positive]].concat());
    assert_eq!(waits.controller().state(), State::Waiting);
    assert_eq!(waits.device().phase(), Some(Phase::Preparing));
    are_taken(&waits);
    moves.extend([Move::Application(Local::Ready), Move::Application(Local::Ready), to_controller(17), to_device(18)]);
    let ready = played_at(station_with(as_planned(), options), RECORDS, &moves);
    are_sent(&ready, &[&START_UP[..16], &[Kind::Positive, Kind::Ready, Kind::Confirm]].concat());
    assert_eq!(ready.controller().state(), State::Exchanging);
    assert_eq!(ready.device().phase(), Some(Phase::Exchanging));
    are_taken(&ready);
}

// Nothing that the device sends arrives: the controller looks for it, and never exchanges data.
#[test]
fn a_start_up_whose_answers_are_lost() {
    let mut moves = Vec::new();
    for number in [0, 2, 4] {
        moves.push(to_device(number));
        wait(&mut moves, AGAIN);
    }
    let world = played(&moves);
    let round = [Kind::Identify, Kind::Found];
    are_sent(&world, &[&round.repeat(3)[..], &[Kind::Identify]].concat());
    assert_eq!(world.controller().state(), State::Looking);
    assert_eq!(world.device().phase(), None);
    assert!(world.device().taken().is_empty());
}

// Of three frames of outputs the first and the last are lost: the device shows those of the second. Of two alarms the second is lost.
// The controller ends a relation in which no inputs arrive for three intervals, so those of one interval are delivered.
#[test]
fn outputs_and_alarms_over_a_network_that_loses_frames() {
    let mut moves = start_up();
    moves.push(to_device(17));
    // Frames 18, 19 and 21 are outputs, frame 20 is inputs.
    moves.push(Move::Give(2, 1, octets(&[7, 9])));
    wait(&mut moves, INTERVAL);
    moves.push(Move::Give(2, 1, octets(&[1, 2])));
    wait(&mut moves, INTERVAL);
    moves.push(to_device(19));
    moves.extend((0..INTERVAL).map(|_| Move::Tick(End::Device)));
    moves.push(to_controller(20));
    moves.push(Move::Give(3, 1, octets(&[3, 4])));
    wait(&mut moves, INTERVAL);
    // Frame 22 is an alarm, 23 its ACK, 24 its AlarmAck and 25 the ACK of that.
    moves.push(Move::Application(Local::Alarm(1, 1, octets(&[0xAA, 0x01]))));
    moves.extend([to_controller(22), to_device(23), to_device(24)]);
    // Frame 26, the next alarm, is lost.
    moves.push(Move::Application(Local::Alarm(1, 1, octets(&[0xAA, 0x02]))));
    let world = played(&moves);
    let rest = [
        Kind::Outputs,
        Kind::Outputs,
        Kind::Inputs,
        Kind::Outputs,
        Kind::Alarm,
        Kind::Ack,
        Kind::AlarmAck,
        Kind::Ack,
        Kind::Alarm,
    ];
    are_sent(&world, &[&START_UP[..], &rest].concat());
    assert_eq!(world.controller().state(), State::Exchanging);
    assert_eq!(world.device().phase(), Some(Phase::Exchanging));
    assert_eq!(world.device().output(2, 1), Some([1, 2].as_slice()));
    assert_eq!(world.device().output(3, 1), Some([0, 0].as_slice()));
    let alarm = world.controller().alarm().expect("an alarm");
    assert_eq!(alarm.slot_number, 1);
    assert_eq!(alarm.alarm_data.octets(), [0xAA, 0x01]);
}

/// The frames of a kind, each with its number.
fn of_kind(world: &Net, kind: Kind) -> Vec<(usize, &[u8])> {
    (0..)
        .map_while(|number| world.sent(number).map(|frame| (number, frame.as_slice())))
        .filter(|(_, octets)| Kind::of(octets) == kind)
        .collect()
}

// The answer to the first Write, frame 7, is lost: the controller sends that Write again and no other. The device answers it again, and
// takes its record once.
#[test]
fn a_write_whose_answer_is_lost_is_sent_again() {
    let mut moves: Vec<Move> = vec![
        to_device(0),
        to_controller(1),
        to_device(2),
        to_controller(3),
        to_device(4),
        to_controller(5),
        to_device(6),
    ];
    wait(&mut moves, AGAIN);
    let world = played(&moves);
    assert_eq!(world.controller().state(), State::Writing);
    let writes = of_kind(&world, Kind::Write);
    assert_eq!(writes.len(), 2);
    let ((first, octets), (second, again)) = (writes[0], writes[1]);
    assert_eq!(first, 6);
    assert_eq!(octets, again);
    moves.push(to_device(second));
    let world = played(&moves);
    let answers = of_kind(&world, Kind::Positive);
    assert_eq!(answers.len(), 3);
    assert_eq!(answers[1].1, answers[2].1);
    assert_eq!(world.device().taken().len(), 1);
}

// Three records, two of slot 1 and one of slot 2, are written in the order of the plan, each once.
#[test]
fn three_records_are_written_in_order() {
    let output = r#""SubmoduleIdentNumber":32,"IOData":{"Output":[{"DataType":"Unsigned16"}]}"#;
    let slot = r#"{"Slot":2,"ModuleItemTarget":"OUT2""#;
    let catalogue = RECORDS
        .replace(
            output,
            &format!(r#"{output},"ParameterRecordDataItem":[{{"Index":1,"Length":4}}]"#),
        )
        .replace(
            slot,
            &format!(r#"{slot},"Records":[{{"Subslot":1,"Index":1,"Data":"0000012c"}}]"#),
        );
    let mut real = as_planned();
    let record = ParameterRecord {
        index: 1,
        length: 4,
    };
    real.modules[2].submodules[0].parameters.push(record);
    let mut moves = Vec::new();
    // Identify, the Set, the Connect, three Writes and PrmEnd, each with its answer; ApplicationReady with its answer.
    for number in [0, 2, 4, 6, 8, 10, 12] {
        moves.extend([to_device(number), to_controller(number + 1)]);
    }
    moves.extend([to_controller(14), to_device(15)]);
    let world = played_with(real, &catalogue, &moves);
    let taken: Vec<(u16, u16, &[u8])> = world
        .device()
        .taken()
        .iter()
        .map(|record| (record.slot, record.index, record.value.as_slice()))
        .collect();
    assert_eq!(
        taken,
        [
            (1, 1, [0, 0, 0, 100].as_slice()),
            (1, 2, [0, 0, 0, 200].as_slice()),
            (2, 1, [0, 0, 1, 44].as_slice()),
        ]
    );
    assert_eq!(world.controller().state(), State::Exchanging);
    assert_eq!(world.device().phase(), Some(Phase::Exchanging));
}

// ApplicationReady, frame 14, is lost for ever, as of a device that lost power. The world has all laws of both ends with this option
// too: the controller ends with the unit that completes its patience, and releases the device.
#[test]
fn a_controller_with_patience_does_not_wait_for_ever() {
    let options = ControllerOptions {
        patience: 0,
        waiting_patience: 1_000,
    };
    let mut moves = Vec::new();
    for number in [0, 2, 4, 6, 8, 10] {
        moves.extend([to_device(number), to_controller(number + 1)]);
    }
    wait(&mut moves, 999);
    let setup = || setup_with(RECORDS, options);
    let waits = played_by(station(as_planned()), setup(), &moves);
    assert_eq!(waits.controller().state(), State::Waiting);
    wait(&mut moves, 1);
    let ended = played_by(station(as_planned()), setup(), &moves);
    assert_eq!(ended.controller().state(), State::Ended(Cause::NoProgress));
    let sent = (0..).take_while(|number| ended.sent(*number).is_some()).count();
    assert_eq!(Kind::of(ended.sent(sent - 1).expect("a frame").as_slice()), Kind::Release);
    assert!(ended.device().phase().is_some());
    moves.push(to_device(sent - 1));
    let released = played_by(station(as_planned()), setup(), &moves);
    assert_eq!(released.device().phase(), None);
}
