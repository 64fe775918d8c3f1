//! Rounds of a start: everything that is under way arrives, and then a unit passes at either end. Both ends exchange data after as
//! many rounds as there are Writes, and four, or five if the device has no IP suite. If a frame of the start is lost or the device loses
//! its power, a controller with a patience ends and is started again, and the rounds are counted until both exchange data again.
use crate::PUMP;
use crate::lists::counting;
use crate::otherwise::{as_planned, plugged, station};
use configurator::plan_from_json;
use controller_core::{Cause, State};
use controller_messages::{ControllerOptions, Setup};
use flash_model::MemoryFlash;
use frame_codec::Outbox;
use network_world::End;
use pn_values::Real;
use rattle_std::alloc::Global;
use relations::Phase;
use rounds_law::Net;
use test_stations::{Station, set_address, step};
use uuid::Uuid;

type Both = Net<MemoryFlash<768>, 768>;

/// The station "pump-1" with these modules, with the IP suite of the plan or without one.
fn device(real: Real, has_address: bool) -> Station {
    let mut device = station(real);
    if has_address {
        step(&mut device, &set_address(), &mut Outbox::new());
    }
    device
}

/// A start of the plan of a catalogue at this station.
fn start(device: Station, catalogue: &str) -> Both {
    start_as(device, catalogue, 1)
}

/// The same with the ARUUID and the calls of this number.
fn start_as(device: Station, catalogue: &str, number: u8) -> Both {
    start_with(device, catalogue, number, ControllerOptions::default())
}

/// The same with these options of the controller.
fn start_with(device: Station, catalogue: &str, number: u8, options: ControllerOptions) -> Both {
    let plan = plan_from_json(Global, catalogue.as_bytes())
        .ok()
        .expect("a plan");
    let setup = Setup {
        plan,
        ar: Uuid::from_bytes([number; 16]),
        activity: Uuid::from_bytes([0x80 + number; 16]),
        options,
    };
    Net::start(Global, device, setup).expect("memory")
}

fn exchanges(net: &Both) -> bool {
    net.controller().state() == State::Exchanging && net.device().phase() == Some(Phase::Exchanging)
}

/// After how many rounds both ends exchange data, if they do after this many.
fn rounds(net: &mut Both, most: usize) -> Option<usize> {
    for number in 0..most {
        if exchanges(net) {
            return Some(number);
        }
        net.round().expect("memory");
    }
    exchanges(net).then_some(most)
}

/// A start takes this many rounds if the device has no IP suite, and one fewer if it has.
fn takes(real: &dyn Fn() -> Real, catalogue: &str, expected: usize) {
    let mut without = start(device(real(), false), catalogue);
    assert_eq!(rounds(&mut without, 100), Some(expected));
    let mut with = start(device(real(), true), catalogue);
    assert_eq!(rounds(&mut with, 100), Some(expected - 1));
}

/// Each record has a Write of its own.
fn singly(count: usize) -> String {
    counting(count).replace(r#""MultipleWriteSupported":true,"#, "")
}

#[test]
fn a_start_takes_a_round_for_each_write_and_five() {
    takes(&|| plugged(&[]), PUMP, 5);
    for (count, writes) in [(1, 1), (2, 2), (10, 10), (11, 11), (25, 25)] {
        takes(&as_planned, &singly(count), writes + 5);
    }
}

#[test]
fn a_list_of_ten_records_takes_one_round() {
    for (count, writes) in [(1, 1), (2, 1), (10, 1), (11, 2), (25, 3)] {
        takes(&as_planned, &counting(count), writes + 5);
    }
}

#[test]
fn a_lost_frame_breaks_a_start() {
    // The two records have a Write each: seven rounds. In the last one nothing that is under way to the controller matters.
    for round in 0..7 {
        let mut net = start(device(as_planned(), false), &singly(2));
        for _ in 0..round {
            net.round().expect("memory");
        }
        net.lose(End::Device);
        assert_eq!(rounds(&mut net, 100), None, "round {round}");
    }
}

/// Both ends go on until they exchange data. A controller that has ended is started again after a pause of this many units, with the ARUUID
/// and the calls of the next number: after how many rounds both exchange data, and the causes of the controllers that ended.
fn goes_on(
    mut net: Both,
    catalogue: &str,
    options: ControllerOptions,
    pause: usize,
) -> (usize, Vec<Cause>) {
    let (mut rounds, mut idle, mut causes) = (0, 0, Vec::new());
    while !exchanges(&net) {
        assert!(rounds < 200_000, "it does not come back");
        net.round().expect("memory");
        rounds += 1;
        let State::Ended(cause) = net.controller().state() else {
            idle = 0;
            continue;
        };
        idle += 1;
        if idle >= pause {
            idle = 0;
            causes.push(cause);
            net = start_with(
                net.into_device(),
                catalogue,
                2 + causes.len() as u8,
                options,
            );
        }
    }
    (rounds, causes)
}

/// The controller of a device is lost, and another start follows at once; it is refused while the device still has its relation: after how
/// many rounds both exchange data, and how many starts were refused.
fn comes_back(lost: Both, catalogue: &str, pause: usize) -> (usize, usize) {
    let again = start_as(lost.into_device(), catalogue, 2);
    let (rounds, causes) = goes_on(again, catalogue, ControllerOptions::default(), pause);
    assert!(causes.iter().all(|cause| *cause == Cause::Refused));
    (rounds, causes.len())
}

#[test]
fn a_controller_comes_back_after_the_data_hold_time() {
    let catalogue = singly(2);
    let exchanging = || {
        let mut net = start(device(as_planned(), true), &catalogue);
        assert_eq!(rounds(&mut net, 100), Some(6));
        net
    };
    // The data hold time is 3 * 32 units. The device refuses in the second round, and the pause begins with it.
    assert_eq!(comes_back(exchanging(), &catalogue, 96), (1 + 96 + 6, 1));
    assert_eq!(
        comes_back(exchanging(), &catalogue, 48),
        (1 + 48 + 1 + 48 + 6, 2)
    );
}

/// This plan with another data hold factor and reduction ratio.
fn timed(catalogue: &str, hold: usize, ratio: usize) -> String {
    catalogue
        .replace(
            r#""DataHoldFactor":3"#,
            &format!(r#""DataHoldFactor":{hold}"#),
        )
        .replace(
            r#""ReductionRatio":1"#,
            &format!(r#""ReductionRatio":{ratio}"#),
        )
}

/// The device loses its power this many units after both ends exchange data, and what it sent last: after how many rounds both exchange
/// data again.
fn deserts(catalogue: &str, has_address: bool, moment: usize, pause: usize) -> usize {
    let mut net = start(device(as_planned(), has_address), catalogue);
    rounds(&mut net, 100).expect("a start");
    for _ in 0..moment {
        net.round().expect("memory");
    }
    net.restart_device().expect("it starts again");
    net.lose(End::Controller);
    assert!(!exchanges(&net));
    let (rounds, causes) = goes_on(net, catalogue, ControllerOptions::default(), pause);
    assert_eq!(causes, [Cause::DataHold]);
    rounds
}

#[test]
fn a_device_comes_back_after_a_power_failure_in_the_exchange() {
    for (count, writes, hold, ratio) in [(2, 1, 3, 1), (25, 3, 3, 1), (2, 1, 8, 1), (2, 1, 3, 4)] {
        let catalogue = timed(&counting(count), hold, ratio);
        let interval = 32 * ratio;
        for pause in [2, 10, 500] {
            for (has_address, fewer) in [(false, 0), (true, 1)] {
                let all =
                    (0..2 * interval).map(|moment| deserts(&catalogue, has_address, moment, pause));
                let all: Vec<usize> = all.collect();
                // The bound is what is left of the data hold time, the pause, and the time of a start. At least a unit of the data hold time
                // is over, and the unit in which the controller ends is the first one of its pause.
                let bound = hold * interval + pause + writes + 5;
                assert_eq!(
                    all.iter().max(),
                    Some(&(bound - 2 - fewer)),
                    "{hold} {ratio} {pause}"
                );
                assert_eq!(
                    all.iter().min(),
                    Some(&(bound - 2 - fewer - (interval - 1))),
                    "{hold} {ratio} {pause}"
                );
            }
        }
    }
}

/// The device loses its power after this many rounds of a start, and frames that are under way to these ends are lost. Also: in which state
/// the controller was then.
fn cuts(
    catalogue: &str,
    has_address: bool,
    round: usize,
    lost: &[End],
    options: ControllerOptions,
    pause: usize,
) -> (State, usize, Vec<Cause>) {
    let mut net = start_with(device(as_planned(), has_address), catalogue, 1, options);
    for _ in 0..round {
        net.round().expect("memory");
    }
    let state = net.controller().state();
    net.restart_device().expect("it starts again");
    for end in lost {
        net.lose(*end);
    }
    let (rounds, causes) = goes_on(net, catalogue, options, pause);
    (state, rounds, causes)
}

#[test]
fn a_start_comes_back_after_a_power_failure_of_the_device() {
    let catalogue = singly(2);
    let (pause, hold) = (10, 96);
    let options = ControllerOptions {
        patience: 2_000,
        waiting_patience: 4_000,
    };
    for (has_address, whole) in [(true, 6), (false, 7)] {
        for round in 0..whole {
            let (state, rounds, causes) = cuts(
                &catalogue,
                has_address,
                round,
                &[End::Device, End::Controller],
                options,
                pause,
            );
            // The controller asks again after a second, or it ends.
            let (ends, longest) = match state {
                State::Looking => (vec![], 32_000 + whole),
                State::Exchanging => (vec![Cause::DataHold], hold + pause + whole),
                _ => (vec![Cause::NoProgress], 2_000 + pause + whole),
            };
            assert_eq!(causes, ends, "round {round}");
            // The state began up to two units ago, and the unit in which the controller ends is the first one of its pause.
            assert!(
                rounds <= longest && longest <= rounds + 3,
                "round {round}: {rounds}, {longest}"
            );
            // If no frame is lost, the search and the first request after it still find the device. Later it refuses the call, if it has
            // kept its IP suite.
            let (_, rounds, causes) = cuts(&catalogue, has_address, round, &[], options, pause);
            assert!(rounds <= longest, "round {round}: {rounds}, {longest}");
            if round < 2 {
                assert_eq!((rounds, causes), (whole - round, vec![]), "round {round}");
            } else if has_address && state != State::Exchanging {
                assert_eq!(
                    (rounds, causes),
                    (pause + whole, vec![Cause::Refused]),
                    "round {round}"
                );
            }
        }
    }
}

#[test]
fn the_rest_of_a_start_takes_a_round_for_each_request() {
    let states = [
        State::Looking,
        State::Addressing,
        State::Connecting,
        State::Writing,
        State::Writing,
        State::Ending,
        State::Exchanging,
    ];
    for (round, state) in states.into_iter().enumerate() {
        let mut net = start(device(as_planned(), false), &singly(2));
        for _ in 0..round {
            net.round().expect("memory");
        }
        assert_eq!(net.controller().state(), state);
        assert_eq!(rounds(&mut net, 100), Some(states.len() - round));
    }
}

#[test]
fn a_lost_response_to_application_ready_is_made_up_for_after_a_second() {
    let mut net = start(device(as_planned(), true), &singly(2));
    for _ in 0..5 {
        net.round().expect("memory");
    }
    assert_eq!(net.controller().state(), State::Exchanging);
    // ApplicationReady was sent a unit ago. It is sent again when the second is over, and then it takes two rounds.
    net.lose(End::Device);
    assert_eq!(rounds(&mut net, 100_000), Some(32_000 - 1 + 2));
}
