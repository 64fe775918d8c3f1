//! What the numbers of a Connect that was read are for: each call that asks for a range takes them as they are.

use super::blocks::{all, request_of};
use connects::ConnectRequest;
use cyclic_data::{Consumer, Provider};
use pn_alarms::{Alarm, DeviceAlarms, Due};

/// The device's end of what a Connect asks for: who sends the inputs, who waits for the outputs, and the alarms.
fn opened(request: &ConnectRequest) -> (Provider, Consumer, DeviceAlarms) {
    let (input, output, alarm) = (request.input(), request.output(), request.alarm());
    (
        Provider::start(input.send_clock_factor, input.reduction_ratio),
        Consumer::new(output.data_hold_factor, output.interval()),
        DeviceAlarms::new(alarm.timeout_factor, alarm.retries),
    )
}

#[test]
fn frames_are_due_and_wanted_by_the_numbers_of_a_connect() {
    let Ok(request) = request_of(all().as_slice()) else {
        panic!("refused");
    };
    let (mut provider, mut consumer, _alarms) = opened(&request);
    // an interval of 32 units, three of which the outputs may stay away
    for _ in 1..32 {
        assert!(!provider.due());
    }
    assert!(provider.due());
    for _ in 1..96 {
        assert!(!consumer.expired());
    }
    assert!(consumer.expired());
}

/// What is due of an alarm as a unit ends.
fn tick(alarms: &mut DeviceAlarms) -> Due {
    alarms.tick()
}

#[test]
fn alarms_are_repeated_by_the_numbers_of_a_connect() {
    let Ok(request) = request_of(all().as_slice()) else {
        panic!("refused");
    };
    let (_provider, _consumer, mut alarms) = opened(&request);
    let alarm = Alarm {
        slot_number: 1,
        subslot_number: 1,
        module_ident_number: 16,
        submodule_ident_number: 16,
        alarm_data: &[7],
    };
    assert_eq!(alarms.raise(&alarm), Ok(()));
    // an RTATimeoutFactor of 1 is 100 ms
    for _ in 1..3200 {
        assert_eq!(tick(&mut alarms), Due::Nothing);
    }
    assert_eq!(tick(&mut alarms), Due::Again);
}
